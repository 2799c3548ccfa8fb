//! Stand-in for the parallel iterators: everything runs in order, on one thread.

#![forbid(unsafe_code)]

/// The two names the Rust text imports.
pub mod iter {
    /// Gives the plain iterator, so that `map` and `collect` are those of the standard library.
    pub trait IntoParallelIterator: IntoIterator + Sized {
        fn into_par_iter(self) -> Self::IntoIter {
            self.into_iter()
        }
    }

    impl<I: IntoIterator> IntoParallelIterator for I {}

    /// Has no methods: they would clash with those of `Iterator`.
    pub trait ParallelIterator: Iterator {}

    impl<I: Iterator> ParallelIterator for I {}
}

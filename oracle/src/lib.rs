//! Takes in the Rust text, unchanged, at the places of the crate where it expects to stand.
//!
//! The text is not ours to tidy, so its modules keep their warnings to themselves.

/// The kernel trait of the text.
#[allow(clippy::all)]
pub mod traits {
    include!(env!("TEXT_TRAITS"));
}
pub use traits::KernelFunction;

/// The matrix helpers of the text.
#[allow(clippy::all)]
pub mod utils {
    include!(env!("TEXT_UTILS"));
}

/// The cross approximation of the text, with our own door to its private function.
#[allow(clippy::all)]
pub mod aca {
    include!(env!("TEXT_ACA"));

    pub mod reach;
}

/// The cross approximation once more, with lines that the build added to note what it does.
#[allow(clippy::all)]
pub mod noted {
    include!(concat!(env!("OUT_DIR"), "/noted.rs"));
}
pub mod notes;

pub mod bbfmm;

/// The tables and transfers of the text, with our own door to its private functions.
#[allow(clippy::all, dead_code, unused_imports)]
pub mod chebyshev {
    include!(env!("TEXT_CHEBYSHEV"));

    pub mod reach;
}

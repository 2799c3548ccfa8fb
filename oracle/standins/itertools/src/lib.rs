//! Stand-in for the iterator adaptors: permutations, first occurrences and products of two.

#![forbid(unsafe_code)]

use std::collections::HashSet;
use std::hash::{BuildHasherDefault, DefaultHasher, Hash};
use std::vec::IntoIter;

/// The adaptors the Rust text calls; both gather their answer at once.
pub trait Itertools: Iterator + Sized {
    /// All arrangements of `length` items, in rising lexicographic order of their positions.
    fn permutations(self, length: usize) -> IntoIter<Vec<Self::Item>>
    where
        Self::Item: Clone,
    {
        let items: Vec<Self::Item> = self.collect();
        let mut found = Vec::new();
        extend(&items, length, &mut Vec::new(), &mut found);
        found.into_iter()
    }

    /// The items without repeats; the first of equal items stays, and the order is kept.
    fn unique(self) -> IntoIter<Self::Item>
    where
        Self::Item: Clone + Eq + Hash,
    {
        // Hashed alike in every run, so that a count of instructions is too.
        let mut seen = HashSet::<_, BuildHasherDefault<DefaultHasher>>::default();
        let kept: Vec<Self::Item> = self.filter(|item| seen.insert(item.clone())).collect();
        kept.into_iter()
    }
}

impl<I: Iterator> Itertools for I {}

/// Adds to `found` every arrangement that starts with the positions in `chosen`.
fn extend<T: Clone>(items: &[T], length: usize, chosen: &mut Vec<usize>, found: &mut Vec<Vec<T>>) {
    if chosen.len() == length {
        found.push(chosen.iter().map(|&place| items[place].clone()).collect());
        return;
    }
    for place in 0..items.len() {
        if !chosen.contains(&place) {
            chosen.push(place);
            extend(items, length, chosen, found);
            chosen.pop();
        }
    }
}

/// Every pair of two iterators; the second runs fastest.
#[macro_export]
macro_rules! iproduct {
    ($first:expr, $second:expr $(,)?) => {
        $crate::pairs($first, $second)
    };
}

/// What `iproduct!` calls.
pub fn pairs<A, B>(first: A, second: B) -> impl Iterator<Item = (A::Item, B::Item)>
where
    A: IntoIterator,
    A::Item: Clone,
    B: IntoIterator,
    B::IntoIter: Clone,
{
    let second = second.into_iter();
    first
        .into_iter()
        .flat_map(move |a| second.clone().map(move |b| (a.clone(), b)))
}

//! Stands for the crate `itertools`: the two methods that the module calls.

use std::{cmp::Ordering, fmt::Display, vec};

/// Stands for the trait of the same name.
pub trait Itertools: Iterator {
    /// The items' texts, with the separator between them.
    fn join(&mut self, separator: &str) -> String
    where
        Self::Item: Display,
    {
        let texts: Vec<String> = self.map(|item| item.to_string()).collect();
        texts.join(separator)
    }

    /// The items in order, equal ones as they came.
    fn sorted_by<F>(self, compare: F) -> vec::IntoIter<Self::Item>
    where
        Self: Sized,
        F: FnMut(&Self::Item, &Self::Item) -> Ordering,
    {
        let mut items: Vec<Self::Item> = self.collect();
        items.sort_by(compare);
        items.into_iter()
    }
}

impl<I: Iterator> Itertools for I {}

//! Glue: the segments of an indexed coproduct, one by one, in order.
//!
//! The published text has no body for these. `into_iter` is what `layered_operations` and `eval`
//! see of the glue; `iter` is called by `Operations::iter` and by our own code alone.
use super::{HasLen, IndexedCoproduct};
use crate::array::vec::VecKind;
use crate::array::{Array, ArrayKind, NaturalArray};
use crate::finite_function::FiniteFunction;
use crate::semifinite::SemifiniteFunction;
use num_traits::{One, Zero};

pub struct Segments<K: ArrayKind> {
    offsets: K::Index,
    values: FiniteFunction<K>,
    next: K::I,
    count: K::I,
}

impl<K: ArrayKind> Iterator for Segments<K> {
    type Item = FiniteFunction<K>;

    fn next(&mut self) -> Option<FiniteFunction<K>> {
        if self.next == self.count {
            return None;
        }
        let start = self.offsets.get(self.next.clone());
        self.next = self.next.clone() + K::I::one();
        let end = self.offsets.get(self.next.clone());
        Some(FiniteFunction {
            table: K::Index::from_slice(self.values.table.get_range(start..end)),
            target: self.values.target.clone(),
        })
    }
}

impl<K: ArrayKind> IntoIterator for IndexedCoproduct<K, FiniteFunction<K>>
where
    K::Type<K::I>: NaturalArray<K>,
{
    type Item = FiniteFunction<K>;
    type IntoIter = Segments<K>;

    fn into_iter(self) -> Segments<K> {
        Segments {
            offsets: self.sources.table.cumulative_sum(),
            count: self.sources.len(),
            values: self.values,
            next: K::I::zero(),
        }
    }
}

impl<T> IndexedCoproduct<VecKind, SemifiniteFunction<VecKind, T>> {
    pub fn iter(&self) -> impl Iterator<Item = &[T]> {
        let mut rest: &[T] = &self.values.0 .0;
        self.sources.table.iter().map(move |&length| {
            let (segment, behind) = rest.split_at(length);
            rest = behind;
            segment
        })
    }
}

//! Stand-in: values that are only added, found again by the id that adding gives.

use std::{marker::PhantomData, ops::Index};

use elsa::FrozenVec;

use crate::DenseIndex;

pub(crate) struct Arena<Id, V> {
    values: FrozenVec<Box<V>>,
    _id: PhantomData<fn(Id) -> Id>,
}

impl<Id, V> Default for Arena<Id, V> {
    fn default() -> Self {
        Self { values: FrozenVec::new(), _id: PhantomData }
    }
}

impl<Id: DenseIndex, V> Arena<Id, V> {
    pub(crate) fn alloc(&self, value: V) -> Id {
        let id = Id::from_index(self.values.len());
        self.values.push(Box::new(value));
        id
    }
}

impl<Id: DenseIndex, V> Index<Id> for Arena<Id, V> {
    type Output = V;

    fn index(&self, id: Id) -> &V {
        &self.values[id.to_index()]
    }
}

//! Stand-in: a map and a set over dense ids.

use std::marker::PhantomData;

use crate::DenseIndex;

/// A map from dense ids to values.
#[derive(Clone, Debug)]
pub struct Mapping<Id, V> {
    values: Vec<Option<V>>,
    _id: PhantomData<fn(Id) -> Id>,
}

impl<Id, V> Default for Mapping<Id, V> {
    fn default() -> Self {
        Self { values: Vec::new(), _id: PhantomData }
    }
}

impl<Id: DenseIndex, V> Mapping<Id, V> {
    /// The empty map.
    pub fn new() -> Self {
        Self::default()
    }

    /// The value at `id`, if there is one.
    pub fn get(&self, id: Id) -> Option<&V> {
        self.values.get(id.to_index())?.as_ref()
    }

    /// The value at `id`, if there is one, to be changed.
    pub fn get_mut(&mut self, id: Id) -> Option<&mut V> {
        self.values.get_mut(id.to_index())?.as_mut()
    }

    /// Sets the value at `id` and gives the one that was there.
    pub fn insert(&mut self, id: Id, value: V) -> Option<V> {
        self.slot(id).replace(value)
    }

    /// The value at `id`, made by `default` if there is none.
    pub fn get_or_insert_with(&mut self, id: Id, default: impl FnOnce() -> V) -> &mut V {
        self.slot(id).get_or_insert_with(default)
    }

    /// The highest index that has been set, or 0.
    pub fn max(&self) -> usize {
        self.values.len().saturating_sub(1)
    }

    /// The ids that have a value, rising, with their values.
    pub fn iter(&self) -> MappingIter<'_, Id, V> {
        MappingIter { values: self.values.iter().enumerate(), _id: PhantomData }
    }

    fn slot(&mut self, id: Id) -> &mut Option<V> {
        let index = id.to_index();
        if index >= self.values.len() {
            self.values.resize_with(index + 1, || None);
        }
        &mut self.values[index]
    }
}

/// See [`Mapping::iter`].
pub struct MappingIter<'a, Id, V> {
    values: std::iter::Enumerate<std::slice::Iter<'a, Option<V>>>,
    _id: PhantomData<fn(Id) -> Id>,
}

impl<'a, Id: DenseIndex, V> Iterator for MappingIter<'a, Id, V> {
    type Item = (Id, &'a V);

    fn next(&mut self) -> Option<Self::Item> {
        self.values.find_map(|(index, value)| Some((Id::from_index(index), value.as_ref()?)))
    }
}

/// A set of dense ids that remembers in which order they came.
pub struct IndexedSet<Id> {
    present: Vec<bool>,
    indices: Vec<usize>,
    _id: PhantomData<fn(Id) -> Id>,
}

impl<Id> Default for IndexedSet<Id> {
    fn default() -> Self {
        Self { present: Vec::new(), indices: Vec::new(), _id: PhantomData }
    }
}

impl<Id: DenseIndex> IndexedSet<Id> {
    /// Whether `id` is in the set.
    pub fn contains(&self, id: Id) -> bool {
        self.present.get(id.to_index()).copied().unwrap_or(false)
    }

    /// Adds `id`; true if it was not in the set.
    pub fn insert(&mut self, id: Id) -> bool {
        let index = id.to_index();
        if index >= self.present.len() {
            self.present.resize(index + 1, false);
        }
        let new = !std::mem::replace(&mut self.present[index], true);
        if new {
            self.indices.push(index);
        }
        new
    }

    /// The ids in the order in which they were added.
    pub fn iter(&self) -> impl Iterator<Item = Id> + '_ {
        self.indices.iter().map(|&index| Id::from_index(index))
    }
}

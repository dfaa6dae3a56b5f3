//! Stand-in: lists kept by a key.
use std::{
    collections::{BTreeMap, HashMap},
    hash::Hash,
};

pub trait NestedVec<K, V> {
    fn nested_push(&mut self, key: K, value: V);
    fn nested_remove(&mut self, key: &K, value: &V);
}

fn without<V: PartialEq>(list: Option<&mut Vec<V>>, value: &V) {
    if let Some(list) = list {
        list.retain(|v| v != value);
    }
}

impl<K: Ord, V: PartialEq> NestedVec<K, V> for BTreeMap<K, Vec<V>> {
    fn nested_push(&mut self, key: K, value: V) { self.entry(key).or_default().push(value) }

    fn nested_remove(&mut self, key: &K, value: &V) { without(self.get_mut(key), value) }
}

impl<K: Eq + Hash, V: PartialEq> NestedVec<K, V> for HashMap<K, Vec<V>> {
    fn nested_push(&mut self, key: K, value: V) { self.entry(key).or_default().push(value) }

    fn nested_remove(&mut self, key: &K, value: &V) { without(self.get_mut(key), value) }
}

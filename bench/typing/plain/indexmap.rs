// The calls of indexmap that are used: a Vec in the order of insertion, and a HashMap to its indices.

use std::collections::HashMap;

pub struct IndexMap<K, V> {
    items: Vec<(K, V)>,
    indices: HashMap<K, usize>,
}

impl<V> IndexMap<String, V> {
    pub fn new() -> Self {
        IndexMap { items: Vec::new(), indices: HashMap::new() }
    }

    pub fn len(&self) -> usize {
        self.items.len()
    }

    pub fn get_full(&self, name: &str) -> Option<(usize, &String, &V)> {
        let index = *self.indices.get(name)?;
        let (key, value) = &self.items[index];
        Some((index, key, value))
    }

    pub fn get(&self, name: &str) -> Option<&V> {
        self.get_full(name).map(|found| found.2)
    }

    pub fn contains_key(&self, name: &str) -> bool {
        self.indices.contains_key(name)
    }

    /// The name is new.
    pub fn insert(&mut self, name: String, value: V) {
        self.indices.insert(name.clone(), self.items.len());
        self.items.push((name, value));
    }
}

impl<K, V> IntoIterator for IndexMap<K, V> {
    type Item = (K, V);
    type IntoIter = std::vec::IntoIter<(K, V)>;

    fn into_iter(self) -> Self::IntoIter {
        self.items.into_iter()
    }
}

pub struct IndexSet<K> {
    map: IndexMap<K, ()>,
}

impl IndexSet<String> {
    pub fn new() -> Self {
        IndexSet { map: IndexMap::new() }
    }

    pub fn len(&self) -> usize {
        self.map.len()
    }

    pub fn contains(&self, name: &str) -> bool {
        self.map.contains_key(name)
    }

    pub fn get_index_of(&self, name: &str) -> Option<usize> {
        self.map.get_full(name).map(|found| found.0)
    }

    /// The name is new.
    pub fn insert(&mut self, name: String) {
        self.map.insert(name, ());
    }
}

impl<K> IntoIterator for IndexSet<K> {
    type Item = K;
    type IntoIter = std::iter::Map<std::vec::IntoIter<(K, ())>, fn((K, ())) -> K>;

    fn into_iter(self) -> Self::IntoIter {
        self.map.into_iter().map(|item| item.0)
    }
}

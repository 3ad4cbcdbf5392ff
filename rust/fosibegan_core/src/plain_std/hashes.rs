use crate::plain_std::alloc::{AllocFailed, Global};

/// Rust's map by hashes.
#[derive(Debug)]
pub struct HashMap<K, V>(::std::collections::HashMap<K, V>);

impl<K: Eq + ::core::hash::Hash, V> HashMap<K, V> {
    pub fn new(_: Global) -> Self {
        HashMap(::std::collections::HashMap::new())
    }

    pub fn insert(&mut self, key: K, value: V) -> Result<Option<V>, AllocFailed<(K, V)>> {
        if self.0.try_reserve(1).is_err() {
            return Err(AllocFailed { value: (key, value) });
        }
        Ok(self.0.insert(key, value))
    }
}

impl<K, V> ::core::ops::Deref for HashMap<K, V> {
    type Target = ::std::collections::HashMap<K, V>;

    fn deref(&self) -> &Self::Target {
        &self.0
    }
}

impl<K, V> ::core::ops::DerefMut for HashMap<K, V> {
    fn deref_mut(&mut self) -> &mut Self::Target {
        &mut self.0
    }
}

impl<K, V> IntoIterator for HashMap<K, V> {
    type Item = (K, V);
    type IntoIter = ::std::collections::hash_map::IntoIter<K, V>;

    fn into_iter(self) -> Self::IntoIter {
        self.0.into_iter()
    }
}

/// Rust's set by hashes.
#[derive(Debug)]
pub struct HashSet<T>(::std::collections::HashSet<T>);

impl<T: Eq + ::core::hash::Hash> HashSet<T> {
    pub fn new(_: Global) -> Self {
        HashSet(::std::collections::HashSet::new())
    }

    pub fn insert(&mut self, item: T) -> Result<bool, AllocFailed<T>> {
        if self.0.try_reserve(1).is_err() {
            return Err(AllocFailed { value: item });
        }
        Ok(self.0.insert(item))
    }
}

impl<T> ::core::ops::Deref for HashSet<T> {
    type Target = ::std::collections::HashSet<T>;

    fn deref(&self) -> &Self::Target {
        &self.0
    }
}

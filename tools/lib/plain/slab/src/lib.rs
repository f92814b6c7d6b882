//! `Slab` of the toolchain: values by keys that are used again.
use plain_std::alloc::{AllocError, Global};

enum Entry<T> {
    Vacant(usize),
    Occupied(T),
}

pub struct Slab<T> {
    entries: Vec<Entry<T>>,
    room: usize,
    next: usize,
    len: usize,
}

impl<T> Slab<T> {
    pub fn with_capacity(_: Global, room: usize) -> Result<Self, AllocError> {
        let entries = Vec::with_capacity(room);
        Ok(Slab {
            entries,
            room,
            next: 0,
            len: 0,
        })
    }
    pub fn capacity(&self) -> usize {
        self.room
    }
    pub fn len(&self) -> usize {
        self.len
    }
    pub fn insert_reserved(&mut self, value: T) -> usize {
        let key = self.next;
        self.len += 1;
        if key == self.entries.len() {
            self.entries.push(Entry::Occupied(value));
            self.next = key + 1;
        } else if let Entry::Vacant(next) =
            std::mem::replace(&mut self.entries[key], Entry::Occupied(value))
        {
            self.next = next;
        }
        key
    }
    pub fn remove(&mut self, key: usize) -> T {
        match std::mem::replace(&mut self.entries[key], Entry::Vacant(self.next)) {
            Entry::Occupied(value) => {
                self.next = key;
                self.len -= 1;
                value
            }
            Entry::Vacant(_) => panic!("no value of this key"),
        }
    }
    pub fn get(&self, key: usize) -> Option<&T> {
        match self.entries.get(key) {
            Some(Entry::Occupied(value)) => Some(value),
            _ => None,
        }
    }
    pub fn get_mut(&mut self, key: usize) -> Option<&mut T> {
        match self.entries.get_mut(key) {
            Some(Entry::Occupied(value)) => Some(value),
            _ => None,
        }
    }
    pub fn contains(&self, key: usize) -> bool {
        self.get(key).is_some()
    }
}

impl<T> std::ops::Index<usize> for Slab<T> {
    type Output = T;
    fn index(&self, key: usize) -> &T {
        self.get(key).expect("no value of this key")
    }
}

impl<T> std::ops::IndexMut<usize> for Slab<T> {
    fn index_mut(&mut self, key: usize) -> &mut T {
        self.get_mut(key).expect("no value of this key")
    }
}

//! The second half of demand 3: lists whose plain layouts have one text, with commas struck out.
use std::collections::hash_map::{DefaultHasher, Entry, HashMap};
use std::hash::{Hash, Hasher};
use std::sync::Mutex;

const SHARDS: usize = 64;

/// The texts of plain layouts, by a 64-bit hash; with each the hash of its lexemes, struck, and a list that has it.
pub struct Texts(Vec<Mutex<HashMap<u64, (u64, u64)>>>);

impl Texts {
    pub fn new() -> Self {
        Texts((0..SHARDS).map(|_| Mutex::default()).collect())
    }

    /// Whether the text was there already; an error is the list that has it with other lexemes.
    pub fn put(&self, text: &[u8], struck: &[&[u8]], list: u64) -> Result<bool, u64> {
        let (text, struck) = (hash(text), hash(struck));
        match self.0[text as usize % SHARDS].lock().unwrap().entry(text) {
            Entry::Vacant(free) => {
                free.insert((struck, list));
                Ok(false)
            }
            Entry::Occupied(seen) if seen.get().0 == struck => Ok(true),
            Entry::Occupied(seen) => Err(seen.get().1),
        }
    }
}

fn hash(value: impl Hash) -> u64 {
    let mut hasher = DefaultHasher::new();
    value.hash(&mut hasher);
    hasher.finish()
}

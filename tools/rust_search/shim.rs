//! What the search crates take of Rattle's standard library, over Rust's own.

use std::collections;
use std::fmt;
use std::fmt::{Debug, Display, Formatter};
use std::hash::Hash;
use std::marker::PhantomData;
use std::ops::{Deref, DerefMut};
use std::slice;
use std::str::FromStr;
use std::sync;
use std::sync::MutexGuard;
use std::sync::atomic::{AtomicU64, Ordering};
use std::vec;

#[derive(Clone, Copy)]
pub struct Global;

#[derive(Debug)]
pub struct AllocError;

/// What is handed back where memory has run out for it.
pub struct AllocFailed<T>(pub T);

impl<T> Debug for AllocFailed<T> {
    fn fmt(&self, f: &mut Formatter<'_>) -> fmt::Result {
        f.write_str("AllocFailed")
    }
}

impl<T> From<AllocFailed<T>> for AllocError {
    fn from(_failed: AllocFailed<T>) -> AllocError {
        AllocError
    }
}

/// A vector whose calls say that memory may run out. Here it never does.
pub struct Vec<T>(vec::Vec<T>);

impl<T> Vec<T> {
    pub fn new(_alloc: Global) -> Vec<T> {
        Vec(vec::Vec::new())
    }

    pub fn with_capacity(_alloc: Global, capacity: usize) -> Result<Vec<T>, AllocError> {
        Ok(Vec(vec::Vec::with_capacity(capacity)))
    }

    pub fn from_slice(_alloc: Global, entries: &[T]) -> Result<Vec<T>, AllocError>
    where
        T: Copy,
    {
        Ok(Vec(entries.to_vec()))
    }

    #[inline(always)]
    pub fn push(&mut self, entry: T) -> Result<(), AllocFailed<T>> {
        self.0.push(entry);
        Ok(())
    }

    pub fn extend_from_slice(&mut self, entries: &[T]) -> Result<(), AllocError>
    where
        T: Copy,
    {
        self.0.extend_from_slice(entries);
        Ok(())
    }

    pub fn append(&mut self, other: &mut Vec<T>) -> Result<(), AllocError> {
        self.0.append(&mut other.0);
        Ok(())
    }

    pub fn resize(&mut self, length: usize, entry: T) -> Result<(), AllocError>
    where
        T: Clone,
    {
        self.0.resize(length, entry);
        Ok(())
    }

    pub fn clone(&self) -> Result<Vec<T>, AllocError>
    where
        T: Clone,
    {
        Ok(Vec(self.0.clone()))
    }

    pub fn capacity(&self) -> usize {
        self.0.capacity()
    }

    pub fn insert(&mut self, place: usize, entry: T) -> Result<(), AllocFailed<T>> {
        self.0.insert(place, entry);
        Ok(())
    }

    pub fn sort_by_cached_key<K: Ord>(&mut self, key: impl FnMut(&T) -> K) -> Result<(), AllocError> {
        self.0.sort_by_cached_key(key);
        Ok(())
    }

    pub fn dedup_by(&mut self, are_same: impl FnMut(&mut T, &mut T) -> bool) {
        self.0.dedup_by(are_same)
    }

    pub fn shrink_to_fit(&mut self) {
        self.0.shrink_to_fit()
    }

    pub fn retain(&mut self, is_kept: impl FnMut(&T) -> bool) {
        self.0.retain(is_kept)
    }

    #[inline(always)]
    pub fn pop(&mut self) -> Option<T> {
        self.0.pop()
    }

    #[inline(always)]
    pub fn len(&self) -> usize {
        self.0.len()
    }

    pub fn is_empty(&self) -> bool {
        self.0.is_empty()
    }

    pub fn clear(&mut self) {
        self.0.clear()
    }

    pub fn truncate(&mut self, length: usize) {
        self.0.truncate(length)
    }

    #[inline(always)]
    pub fn as_slice(&self) -> &[T] {
        &self.0
    }

    #[inline(always)]
    pub fn as_mut_slice(&mut self) -> &mut [T] {
        &mut self.0
    }
}

impl<T> Deref for Vec<T> {
    type Target = [T];

    #[inline(always)]
    fn deref(&self) -> &[T] {
        &self.0
    }
}

impl<T> DerefMut for Vec<T> {
    #[inline(always)]
    fn deref_mut(&mut self) -> &mut [T] {
        &mut self.0
    }
}

impl<T> IntoIterator for Vec<T> {
    type Item = T;
    type IntoIter = vec::IntoIter<T>;

    fn into_iter(self) -> vec::IntoIter<T> {
        self.0.into_iter()
    }
}

impl<'a, T> IntoIterator for &'a Vec<T> {
    type Item = &'a T;
    type IntoIter = slice::Iter<'a, T>;

    fn into_iter(self) -> slice::Iter<'a, T> {
        self.0.iter()
    }
}

impl<'a, T> IntoIterator for &'a mut Vec<T> {
    type Item = &'a mut T;
    type IntoIter = slice::IterMut<'a, T>;

    fn into_iter(self) -> slice::IterMut<'a, T> {
        self.0.iter_mut()
    }
}

pub fn vec_of<T: Clone>(entry: T, count: usize) -> Result<Vec<T>, AllocError> {
    Ok(Vec(vec![entry; count]))
}

/// Collects what an iterator gives into a vector, as `collect` does with an allocator.
pub trait Collecting: Iterator + Sized {
    fn collect_in(self, _alloc: Global) -> Result<Vec<Self::Item>, AllocError> {
        Ok(Vec(Iterator::collect(self)))
    }
}

impl<I: Iterator> Collecting for I {}

/// A list that lies in the value itself while it is short. Here it never does.
pub struct SmallVec<T, const N: usize>(vec::Vec<T>);

impl<T: Copy, const N: usize> SmallVec<T, N> {
    pub fn new(_alloc: Global) -> SmallVec<T, N> {
        SmallVec(vec::Vec::new())
    }

    pub fn push_reserved(&mut self, entry: T) {
        self.0.push(entry);
    }

    pub fn from_slice(_alloc: Global, entries: &[T]) -> Result<SmallVec<T, N>, AllocError> {
        Ok(SmallVec(entries.to_vec()))
    }

    pub fn from_buf_and_len(_alloc: Global, entries: [T; N], length: usize) -> SmallVec<T, N> {
        SmallVec(entries[..length].to_vec())
    }

    pub fn as_slice(&self) -> &[T] {
        &self.0
    }
}

/// A value that proofs alone see.
pub struct Snapshot<T>(PhantomData<T>);

impl<T> Snapshot<T> {
    pub fn of(_value: &T) -> Snapshot<T> {
        Snapshot(PhantomData)
    }
}

/// A map whose calls say that memory may run out.
pub struct HashMap<K, V>(collections::HashMap<K, V>);

impl<K: Eq + Hash, V> HashMap<K, V> {
    pub fn new(_alloc: Global) -> HashMap<K, V> {
        HashMap(collections::HashMap::new())
    }

    pub fn insert(&mut self, key: K, value: V) -> Result<Option<V>, AllocError> {
        Ok(self.0.insert(key, value))
    }

    pub fn with_capacity(_alloc: Global, capacity: usize) -> Result<HashMap<K, V>, AllocError> {
        Ok(HashMap(collections::HashMap::with_capacity(capacity)))
    }

    pub fn get(&self, key: &K) -> Option<&V> {
        self.0.get(key)
    }

    pub fn len(&self) -> usize {
        self.0.len()
    }
}

/// A map by rising keys whose calls say that memory may run out.
pub struct BTreeMap<K, V>(collections::BTreeMap<K, V>);

impl<K: Ord, V> BTreeMap<K, V> {
    pub fn new(_alloc: Global) -> BTreeMap<K, V> {
        BTreeMap(collections::BTreeMap::new())
    }

    pub fn insert(&mut self, key: K, value: V) -> Result<Option<V>, AllocError> {
        Ok(self.0.insert(key, value))
    }

    pub fn remove(&mut self, key: &K) -> Option<V> {
        self.0.remove(key)
    }

    pub fn get(&self, key: &K) -> Option<&V> {
        self.0.get(key)
    }

    pub fn get_mut(&mut self, key: &K) -> Option<&mut V> {
        self.0.get_mut(key)
    }

    pub fn iter(&self) -> collections::btree_map::Iter<'_, K, V> {
        self.0.iter()
    }

    pub fn contains_key(&self, key: &K) -> bool {
        self.0.contains_key(key)
    }
}

/// A set whose calls say that memory may run out.
pub struct BTreeSet<T>(collections::BTreeSet<T>);

impl<T: Ord> BTreeSet<T> {
    pub fn new(_alloc: Global) -> BTreeSet<T> {
        BTreeSet(collections::BTreeSet::new())
    }

    pub fn insert(&mut self, entry: T) -> Result<bool, AllocError> {
        Ok(self.0.insert(entry))
    }

    pub fn remove(&mut self, entry: &T) -> bool {
        self.0.remove(entry)
    }

    pub fn iter(&self) -> collections::btree_set::Iter<'_, T> {
        self.0.iter()
    }

    pub fn is_empty(&self) -> bool {
        self.0.is_empty()
    }

    pub fn contains(&self, entry: &T) -> bool {
        self.0.contains(entry)
    }

    pub fn clear(&mut self) {
        self.0.clear()
    }
}

/// The digits of a number, as `itoa` writes them.
pub struct Buffer(String);

impl Buffer {
    pub fn new() -> Buffer {
        Buffer(String::new())
    }

    pub fn format(&mut self, number: impl Display) -> &str {
        self.0 = number.to_string();
        &self.0
    }
}

/// The first place of the byte.
pub fn memchr(byte: u8, bytes: &[u8]) -> Option<usize> {
    bytes.iter().position(|other| *other == byte)
}

/// A lock that is free whenever it is asked for.
pub struct Mutex<T>(sync::Mutex<T>);

impl<T> Mutex<T> {
    pub fn new(value: T) -> Mutex<T> {
        Mutex(sync::Mutex::new(value))
    }

    pub fn try_lock(&self) -> Option<MutexGuard<'_, T>> {
        self.0.try_lock().ok()
    }

    pub fn get_mut(&mut self) -> &mut T {
        self.0.get_mut().expect("no thread has panicked")
    }
}

static GIVEN: sync::Mutex<vec::Vec<(String, String)>> = sync::Mutex::new(vec::Vec::new());

/// Gives the setting this value, before anyone asks for it.
pub fn give_setting(name: &str, value: &str) {
    let mut given = GIVEN.lock().expect("settings");
    given.push((name.to_string(), value.to_string()));
}

/// The value that the setting was given last, else the default.
pub fn given_setting<T: FromStr>(name: &str, default: T) -> T {
    let given = GIVEN.lock().expect("settings");
    match given.iter().rev().find(|entry| entry.0 == name) {
        Some((_, value)) => value.parse().ok().expect("a value of the setting's type"),
        None => default,
    }
}

/// The value of a setting, which is looked up once.
macro_rules! setting {
    ($name:literal, $kind:ty, $default:expr) => {{
        static VALUE: std::sync::OnceLock<$kind> = std::sync::OnceLock::new();
        *VALUE.get_or_init(|| crate::shim::given_setting($name, $default))
    }};
}
pub(crate) use setting;

static LEARNED: AtomicU64 = AtomicU64::new(0);
static TRIMMED: AtomicU64 = AtomicU64::new(0);

/// Notes how many steps of a derivation were learned, and how many are left of them.
pub fn note_steps(learned: u64, trimmed: usize) {
    LEARNED.store(learned, Ordering::SeqCst);
    TRIMMED.store(trimmed as u64, Ordering::SeqCst);
}

/// The steps of the last derivation that was noted: as they were learned, and as they are trimmed.
pub fn noted_steps() -> (u64, u64) {
    (LEARNED.load(Ordering::SeqCst), TRIMMED.load(Ordering::SeqCst))
}

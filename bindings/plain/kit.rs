//! What the proved crates use of their standard library, over Rust's own.
//!
//! What takes memory gives an [`AllocError`] if there is none, and changes nothing then. Lists and texts are
//! made of Rust's own and become such, without a copy.

#[cfg(feature = "std")]
mod host;
mod map;
#[cfg(feature = "std")]
mod ported;

use alloc::{string, vec};
use core::borrow::Borrow;
use core::fmt;
use core::mem::{self, ManuallyDrop};
use core::ops::{Deref, DerefMut};

#[cfg(feature = "std")]
pub use host::{env, io, process, rt, AllocGlobal, HostRuntime};
pub use map::BTreeMap;
#[cfg(feature = "std")]
pub use ported::{itoa, memchr, percent_encoding, simd};

/// A type with a model, which only the prover reads.
pub trait Model {}

/// The allocator, which is Rust's global one.
#[derive(Clone, Copy, Debug, Default, PartialEq, Eq)]
pub struct Global;

/// There is no memory.
#[derive(Clone, Copy, Debug, PartialEq, Eq)]
pub struct AllocError;

impl fmt::Display for AllocError {
    fn fmt(&self, f: &mut fmt::Formatter<'_>) -> fmt::Result {
        f.write_str("out of memory")
    }
}

impl core::error::Error for AllocError {}

// ---- Lists ----

/// A list that grows.
#[derive(PartialEq, Eq, PartialOrd, Ord, Hash)]
pub struct Vec<T>(ManuallyDrop<vec::Vec<T>>);

/// An iterator that moves the values of a list out.
pub type IntoIter<T> = vec::IntoIter<T>;

impl<T> Vec<T> {
    /// Returns an empty list. Takes no memory.
    #[inline]
    pub const fn new(_: Global) -> Self {
        Vec(ManuallyDrop::new(vec::Vec::new()))
    }

    /// Returns an empty list with this much room.
    ///
    /// # Errors
    ///
    /// There is no memory.
    #[inline]
    pub fn with_capacity(alloc: Global, room: usize) -> Result<Self, AllocError> {
        let mut made = Vec::new(alloc);
        made.0.try_reserve_exact(room).map_err(|_| AllocError)?;
        Ok(made)
    }

    /// Makes room for so many more values.
    ///
    /// # Errors
    ///
    /// There is no memory.
    #[inline]
    pub fn reserve(&mut self, more: usize) -> Result<(), AllocError> {
        if more > self.0.capacity() - self.0.len() {
            return self.grow(more);
        }
        Ok(())
    }

    #[cold]
    #[inline(never)]
    fn grow(&mut self, more: usize) -> Result<(), AllocError> {
        self.0.try_reserve(more).map_err(|_| AllocError)
    }

    /// Appends a value.
    ///
    /// # Errors
    ///
    /// There is no memory.
    #[inline]
    pub fn push(&mut self, value: T) -> Result<(), AllocError> {
        match self.reserve(1) {
            Ok(()) => {
                self.0.push(value);
                Ok(())
            }
            Err(error) => refuse((value, true), error),
        }
    }

    /// Appends a value for which there is room.
    #[inline]
    pub fn push_reserved(&mut self, value: T) {
        self.0.push(value);
    }

    /// Puts a value before the one at this place, which is at most the length.
    ///
    /// # Errors
    ///
    /// There is no memory.
    pub fn insert(&mut self, place: usize, value: T) -> Result<(), AllocError> {
        self.reserve(1)?;
        self.0.insert(place, value);
        Ok(())
    }

    /// Takes the last value off.
    #[inline]
    pub fn pop(&mut self) -> Option<T> {
        self.0.pop()
    }

    /// Returns for how many values, or bytes, there is room.
    #[inline]
    pub fn capacity(&self) -> usize {
        self.0.capacity()
    }

    /// Takes everything off. The room stays.
    #[inline]
    pub fn clear(&mut self) {
        self.0.clear();
    }

    /// Returns the values.
    #[inline]
    pub fn as_slice(&self) -> &[T] {
        &self.0
    }

    /// Returns the values, to be changed.
    #[inline]
    pub fn as_mut_slice(&mut self) -> &mut [T] {
        &mut self.0
    }

    /// Returns the allocator.
    #[inline]
    pub fn allocator(&self) -> &Global {
        &Global
    }
}

impl<T: Clone> Vec<T> {
    /// Appends copies of values.
    ///
    /// # Errors
    ///
    /// There is no memory.
    #[inline]
    pub fn extend_from_slice(&mut self, values: &[T]) -> Result<(), AllocError> {
        self.reserve(values.len())?;
        self.0.extend_from_slice(values);
        Ok(())
    }

    /// Lengthens the list by copies of a value, or shortens it.
    ///
    /// # Errors
    ///
    /// There is no memory.
    pub fn resize(&mut self, length: usize, value: T) -> Result<(), AllocError> {
        self.reserve(length.saturating_sub(self.0.len()))?;
        self.0.resize(length, value);
        Ok(())
    }
}

impl<T> Deref for Vec<T> {
    type Target = [T];

    #[inline]
    fn deref(&self) -> &[T] {
        &self.0
    }
}

impl<T> DerefMut for Vec<T> {
    #[inline]
    fn deref_mut(&mut self) -> &mut [T] {
        &mut self.0
    }
}

impl<T: fmt::Debug> fmt::Debug for Vec<T> {
    fn fmt(&self, f: &mut fmt::Formatter<'_>) -> fmt::Result {
        self.as_slice().fmt(f)
    }
}

impl<T> Default for Vec<T> {
    #[inline]
    fn default() -> Self {
        Vec::new(Global)
    }
}

impl<T> AsRef<[T]> for Vec<T> {
    #[inline]
    fn as_ref(&self) -> &[T] {
        &self.0
    }
}

impl<T> From<vec::Vec<T>> for Vec<T> {
    #[inline]
    fn from(values: vec::Vec<T>) -> Self {
        Vec(ManuallyDrop::new(values))
    }
}

impl<T> From<Vec<T>> for vec::Vec<T> {
    #[inline]
    fn from(mut values: Vec<T>) -> Self {
        mem::take(&mut *values.0)
    }
}

/// A list of values that have something to be dropped is dropped by a function of its own: among the variants
/// of an event one has such a list, and the others need no registers for it.
impl<T> Drop for Vec<T> {
    #[inline]
    fn drop(&mut self) {
        if self.0.capacity() == 0 {
            return;
        }
        match mem::needs_drop::<T>() {
            true => drop_values(&mut self.0),
            false => drop(mem::take(&mut *self.0)),
        }
    }
}

#[inline(never)]
fn drop_values<T>(values: &mut vec::Vec<T>) {
    drop(mem::take(values));
}

/// Drops a value for which there is no room. As a part of `push`, or with the value as an argument by itself, it
/// would need the value in memory, and a copy to the list from there. A pair is made only here.
#[cold]
#[inline(never)]
fn refuse<T>(value: (T, bool), error: AllocError) -> Result<(), AllocError> {
    drop(value);
    Err(error)
}

impl<'a, T> IntoIterator for &'a Vec<T> {
    type Item = &'a T;
    type IntoIter = core::slice::Iter<'a, T>;

    #[inline]
    fn into_iter(self) -> Self::IntoIter {
        self.0.iter()
    }
}

impl<T> IntoIterator for Vec<T> {
    type Item = T;
    type IntoIter = IntoIter<T>;

    #[inline]
    fn into_iter(mut self) -> IntoIter<T> {
        mem::take(&mut *self.0).into_iter()
    }
}

// ---- Texts ----

/// A text that grows.
#[derive(PartialEq, Eq, PartialOrd, Ord, Hash)]
pub struct String(string::String);

impl String {
    /// Returns an empty text. Takes no memory.
    #[inline]
    pub const fn new(_: Global) -> Self {
        String(string::String::new())
    }

    /// Returns an empty text with room for so many bytes.
    ///
    /// # Errors
    ///
    /// There is no memory.
    #[inline]
    pub fn with_capacity(alloc: Global, room: usize) -> Result<Self, AllocError> {
        let mut made = String::new(alloc);
        made.0.try_reserve_exact(room).map_err(|_| AllocError)?;
        Ok(made)
    }

    /// Returns a copy of a text.
    ///
    /// # Errors
    ///
    /// There is no memory.
    #[allow(clippy::should_implement_trait)]
    #[inline]
    pub fn from_str(alloc: Global, text: &str) -> Result<Self, AllocError> {
        let mut made = String::with_capacity(alloc, text.len())?;
        made.0.push_str(text);
        Ok(made)
    }

    /// Returns these bytes as a text, without a copy.
    ///
    /// # Errors
    ///
    /// They are no UTF-8.
    pub fn from_utf8(bytes: Vec<u8>) -> Result<Self, string::FromUtf8Error> {
        string::String::from_utf8(bytes.into()).map(String)
    }

    /// Makes room for so many more bytes.
    ///
    /// # Errors
    ///
    /// There is no memory.
    #[inline]
    pub fn reserve(&mut self, more: usize) -> Result<(), AllocError> {
        match more > self.0.capacity() - self.0.len() {
            true => self.grow(more),
            false => Ok(()),
        }
    }

    /// Appends a text.
    ///
    /// # Errors
    ///
    /// There is no memory.
    #[inline]
    pub fn push_str(&mut self, text: &str) -> Result<(), AllocError> {
        if text.len() > self.0.capacity() - self.0.len() {
            self.grow(text.len())?;
        }
        self.0.push_str(text);
        Ok(())
    }

    #[cold]
    #[inline(never)]
    fn grow(&mut self, more: usize) -> Result<(), AllocError> {
        self.0.try_reserve(more).map_err(|_| AllocError)
    }

    /// Returns the text.
    #[inline]
    pub fn as_str(&self) -> &str {
        &self.0
    }

    /// Returns for how many values, or bytes, there is room.
    #[inline]
    pub fn capacity(&self) -> usize {
        self.0.capacity()
    }

    /// Takes everything off. The room stays.
    #[inline]
    pub fn clear(&mut self) {
        self.0.clear();
    }

    /// Returns the allocator.
    #[inline]
    pub fn allocator(&self) -> &Global {
        &Global
    }
}

impl Deref for String {
    type Target = str;

    #[inline]
    fn deref(&self) -> &str {
        &self.0
    }
}

impl Borrow<str> for String {
    #[inline]
    fn borrow(&self) -> &str {
        &self.0
    }
}

impl Default for String {
    #[inline]
    fn default() -> Self {
        String::new(Global)
    }
}

impl AsRef<str> for String {
    #[inline]
    fn as_ref(&self) -> &str {
        &self.0
    }
}

impl From<string::String> for String {
    #[inline]
    fn from(text: string::String) -> Self {
        String(text)
    }
}

impl From<String> for string::String {
    #[inline]
    fn from(text: String) -> Self {
        text.0
    }
}

impl PartialEq<str> for String {
    #[inline]
    fn eq(&self, other: &str) -> bool {
        self.0 == other
    }
}

impl PartialEq<&str> for String {
    #[inline]
    fn eq(&self, other: &&str) -> bool {
        self.0 == *other
    }
}

impl fmt::Debug for String {
    fn fmt(&self, f: &mut fmt::Formatter<'_>) -> fmt::Result {
        self.0.fmt(f)
    }
}

impl fmt::Display for String {
    fn fmt(&self, f: &mut fmt::Formatter<'_>) -> fmt::Result {
        f.write_str(&self.0)
    }
}

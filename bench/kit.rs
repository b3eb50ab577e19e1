//! What the crates use of the kit's libraries, for `unproved.py`. It is near to them, and not the same.
use std::alloc::{AllocError, Allocator, Global};
use std::ops::{Deref, DerefMut};
use std::simd::prelude::*;

/// A vector whose calls return that memory is refused.
#[derive(Debug)]
pub struct Vec<T, A: Allocator = Global>(std::vec::Vec<T, A>);

impl<T, A: Allocator> Vec<T, A> {
    #[inline]
    pub fn new(alloc: A) -> Self {
        Vec(std::vec::Vec::new_in(alloc))
    }

    #[inline]
    pub fn with_capacity(alloc: A, capacity: usize) -> Result<Self, AllocError> {
        let mut new = Vec::new(alloc);
        new.0.try_reserve_exact(capacity).map_err(|_| AllocError)?;
        Ok(new)
    }

    #[inline]
    pub fn reserve(&mut self, more: usize) -> Result<(), AllocError> {
        self.0.try_reserve(more).map_err(|_| AllocError)
    }

    pub fn reserve_exact(&mut self, more: usize) -> Result<(), AllocError> {
        self.0.try_reserve_exact(more).map_err(|_| AllocError)
    }

    #[inline]
    pub fn push(&mut self, item: T) -> Result<(), AllocError> {
        self.reserve(1)?;
        self.0.push(item);
        Ok(())
    }

    #[inline]
    pub fn as_slice(&self) -> &[T] {
        &self.0
    }

    #[inline]
    pub fn clear(&mut self) {
        self.0.clear()
    }
}

impl<T: Clone, A: Allocator> Vec<T, A> {
    #[inline]
    pub fn extend_from_slice(&mut self, items: &[T]) -> Result<(), AllocError> {
        self.reserve(items.len())?;
        self.0.extend_from_slice(items);
        Ok(())
    }

    pub fn resize(&mut self, len: usize, item: T) -> Result<(), AllocError> {
        self.reserve(len.saturating_sub(self.len()))?;
        self.0.resize(len, item);
        Ok(())
    }

    pub fn from_elem(alloc: A, item: T, count: usize) -> Result<Self, AllocError> {
        let mut new = Vec::with_capacity(alloc, count)?;
        new.resize(count, item)?;
        Ok(new)
    }
}

impl<T, A: Allocator> Deref for Vec<T, A> {
    type Target = [T];

    #[inline]
    fn deref(&self) -> &[T] {
        &self.0
    }
}

impl<T, A: Allocator> DerefMut for Vec<T, A> {
    #[inline]
    fn deref_mut(&mut self) -> &mut [T] {
        &mut self.0
    }
}

impl<T, A: Allocator> IntoIterator for Vec<T, A> {
    type Item = T;
    type IntoIter = std::vec::IntoIter<T, A>;

    fn into_iter(self) -> Self::IntoIter {
        self.0.into_iter()
    }
}

impl<A: Allocator> std::io::Write for Vec<u8, A> {
    #[inline]
    fn write(&mut self, bytes: &[u8]) -> std::io::Result<usize> {
        match self.extend_from_slice(bytes) {
            Ok(()) => Ok(bytes.len()),
            Err(_) => Err(std::io::ErrorKind::OutOfMemory.into()),
        }
    }

    #[inline]
    fn flush(&mut self) -> std::io::Result<()> {
        Ok(())
    }
}

#[derive(Debug)]
pub struct CapacityError;

/// Up to `N` items on the stack.
#[derive(Clone, Copy, Debug)]
pub struct ArrayVec<T: Copy, const N: usize> {
    items: [std::mem::MaybeUninit<T>; N],
    len: usize,
}

impl<T: Copy, const N: usize> ArrayVec<T, N> {
    #[inline]
    pub fn new() -> Self {
        ArrayVec { items: [const { std::mem::MaybeUninit::uninit() }; N], len: 0 }
    }

    #[inline]
    pub fn push(&mut self, item: T) {
        self.items[self.len].write(item);
        self.len += 1;
    }

    #[inline]
    pub fn clear(&mut self) {
        self.len = 0;
    }

    #[inline]
    pub fn as_slice(&self) -> &[T] {
        unsafe { std::slice::from_raw_parts(self.items.as_ptr().cast(), self.len) }
    }

    #[inline]
    pub fn try_extend_from_slice(&mut self, items: &[T]) -> Result<(), CapacityError> {
        if N - self.len < items.len() {
            return Err(CapacityError);
        }
        let room = &mut self.items[self.len..self.len + items.len()];
        for (cell, item) in room.iter_mut().zip(items) {
            cell.write(*item);
        }
        self.len += items.len();
        Ok(())
    }
}

impl<T: Copy, const N: usize> Deref for ArrayVec<T, N> {
    type Target = [T];

    #[inline]
    fn deref(&self) -> &[T] {
        self.as_slice()
    }
}

/// Up to `N` items on the stack, and more elsewhere.
#[derive(Debug)]
pub struct SmallVec<T: Copy, const N: usize, A: Allocator = Global> {
    few: ArrayVec<T, N>,
    many: Vec<T, A>,
}

impl<T: Copy, const N: usize, A: Allocator> SmallVec<T, N, A> {
    #[inline]
    pub fn new(alloc: A) -> Self {
        SmallVec { few: ArrayVec::new(), many: Vec::new(alloc) }
    }

    #[inline]
    pub fn push(&mut self, item: T) -> Result<(), AllocError> {
        if self.many.is_empty() && self.few.len < N {
            self.few.push(item);
            return Ok(());
        }
        if self.many.is_empty() {
            self.many.extend_from_slice(&self.few)?;
        }
        self.many.push(item)
    }

    #[inline]
    pub fn clear(&mut self) {
        self.few.clear();
        self.many.clear();
    }

    #[inline]
    pub fn as_slice(&self) -> &[T] {
        if self.many.is_empty() { &self.few } else { &self.many }
    }
}

impl<T: Copy, const N: usize, A: Allocator> Deref for SmallVec<T, N, A> {
    type Target = [T];

    #[inline]
    fn deref(&self) -> &[T] {
        self.as_slice()
    }
}

/// The room for the digits of a number.
pub struct Buffer([u8; 40]);

impl Buffer {
    pub fn new() -> Self {
        Buffer([0; 40])
    }

    pub fn format(&mut self, number: impl Into<i128>) -> &str {
        let number = number.into();
        let mut start = write_digits(number.unsigned_abs() as u64, &mut self.0, 40);
        if number < 0 {
            start -= 1;
            self.0[start] = b'-';
        }
        std::str::from_utf8(&self.0[start..]).unwrap_or("")
    }
}

/// Writes digits that end at an offset, and returns the offset of the first.
pub fn write_digits(number: u64, out: &mut [u8], end: usize) -> usize {
    let (mut left, mut at) = (number, end);
    loop {
        at -= 1;
        out[at] = b'0' + (left % 10) as u8;
        left /= 10;
        if left == 0 {
            return at;
        }
    }
}

const LANES: usize = 32;

/// The first offset of one byte.
pub fn memchr(byte: u8, text: &[u8]) -> Option<usize> {
    memchr2(byte, byte, text)
}

/// The first offset of one of two bytes.
#[inline(never)]
pub fn memchr2(first: u8, second: u8, text: &[u8]) -> Option<usize> {
    let ends = |at: usize| {
        let bytes = Simd::<u8, LANES>::from_slice(&text[at..at + LANES]);
        bytes.simd_eq(Simd::splat(first)) | bytes.simd_eq(Simd::splat(second))
    };
    let mut at = 0;
    while 2 * LANES <= text.len() - at && !(ends(at) | ends(at + LANES)).any() {
        at += 2 * LANES;
    }
    while LANES <= text.len() - at {
        if let Some(more) = ends(at).first_set() {
            return Some(at + more);
        }
        at += LANES;
    }
    if text.len() < LANES {
        return text.iter().position(|byte| *byte == first || *byte == second);
    }
    at = text.len() - LANES;
    ends(at).first_set().map(|more| at + more)
}

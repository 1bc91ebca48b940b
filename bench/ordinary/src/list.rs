//! A list of fixed room, which is not filled before it is used.

use std::mem::MaybeUninit;
use std::ops::Deref;
use std::slice;

pub struct List<T, const N: usize> {
    room: [MaybeUninit<T>; N],
    used: usize,
}

impl<T: Copy, const N: usize> List<T, N> {
    pub fn new() -> Self {
        List { room: [const { MaybeUninit::uninit() }; N], used: 0 }
    }

    /// Adds an item; there must be room.
    pub fn push(&mut self, item: T) {
        self.room[self.used].write(item);
        self.used += 1;
    }
}

impl<T, const N: usize> Deref for List<T, N> {
    type Target = [T];

    fn deref(&self) -> &[T] {
        // The first `used` places were written by `push`.
        unsafe { slice::from_raw_parts(self.room.as_ptr().cast(), self.used) }
    }
}

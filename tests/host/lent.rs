//! Memory lent to a call, between guards, with a copy of what it held.

use std::hint::black_box;

const GUARDS: usize = 64;

/// An element that no call leaves by itself.
pub trait Guard: Copy + PartialEq {
    const GUARD: Self;
}

macro_rules! guards {
    ($($number:ty: $guard:expr),*) => { $(impl Guard for $number { const GUARD: Self = $guard; })* };
}

guards!(u8: 0xA5, u16: 0xA5A5, i16: -0x5A5B, u32: 0xA5A5_A5A5, i32: -0x5A5A_5A5B, usize: 0xA5A5_A5A5_A5A5_A5A5);

pub struct Lent<T> {
    memory: Vec<T>,
    before: Vec<T>,
}

impl<T: Guard> Lent<T> {
    pub fn of(contents: &[T]) -> Self {
        let guard = [T::GUARD; GUARDS];
        Lent { memory: [&guard[..], contents, &guard[..]].concat(), before: contents.to_vec() }
    }

    pub fn part(&self) -> &[T] {
        &self.memory[GUARDS..GUARDS + self.before.len()]
    }

    pub fn part_mut(&mut self) -> &mut [T] {
        let end = GUARDS + self.before.len();
        &mut self.memory[GUARDS..end]
    }

    /// As a call of C takes it.
    pub fn pointer(&mut self) -> *mut T {
        unsafe { self.memory.as_mut_ptr().add(GUARDS) }
    }

    pub fn guards_kept(&self) -> bool {
        let memory = black_box(&self.memory);
        let (before, after) = (&memory[..GUARDS], &memory[GUARDS + self.before.len()..]);
        after.len() == GUARDS && before.iter().chain(after).all(|element| *element == T::GUARD)
    }

    /// The guards and the contents are as they were.
    pub fn kept(&self) -> bool {
        self.guards_kept() && self.part() == self.before
    }

    /// The contents are now these, or those that it has.
    pub fn fill(&mut self, element: T) {
        self.part_mut().fill(element);
        self.seal();
    }

    pub fn seal(&mut self) {
        self.before = self.part().to_vec();
    }
}

//! Lent memory between guard words, and what is wrong with it after a call.

use std::fmt::Debug;

use oracle::random::Random;

/// Words before and after what is lent.
pub const GUARD: usize = 16;

pub trait Word: Copy + PartialEq + Debug + Default {
    fn of(bits: u64) -> Self;
}

impl Word for u8 {
    fn of(bits: u64) -> u8 {
        bits as u8
    }
}

impl Word for u32 {
    fn of(bits: u64) -> u32 {
        bits as u32
    }
}

impl Word for u64 {
    fn of(bits: u64) -> u64 {
        bits
    }
}

impl Word for usize {
    fn of(bits: u64) -> usize {
        bits as usize
    }
}

pub struct Lent<W> {
    words: Box<[W]>,
    before: Box<[W]>,
    guard: usize,
}

/// What lent memory is to hold after a call.
#[derive(Clone, Copy)]
pub enum After<'a, W> {
    AsBefore,
    /// These words, then zeros.
    Filled(&'a [W]),
}

impl<W: Word> Lent<W> {
    /// Memory that holds these words.
    pub fn holding(words: &[W], r: &mut Random, guard: usize) -> Lent<W> {
        let mut all: Vec<W> = Vec::with_capacity(words.len() + 2 * guard);
        all.extend((0..guard).map(|_| W::of(r.bits())));
        all.extend_from_slice(words);
        all.extend((0..guard).map(|_| W::of(r.bits())));
        Lent { words: all.clone().into_boxed_slice(), before: all.into_boxed_slice(), guard }
    }

    /// So many random words.
    pub fn random(length: usize, r: &mut Random, guard: usize) -> Lent<W> {
        let words: Vec<W> = (0..length).map(|_| W::of(r.bits())).collect();
        Lent::holding(&words, r, guard)
    }

    pub fn len(&self) -> usize {
        self.words.len() - 2 * self.guard
    }

    pub fn pointer(&mut self) -> *mut W {
        self.words[self.guard..].as_mut_ptr()
    }

    /// Where the memory, guards and all, is not as it has to be.
    pub fn wrong(&self, what: &str, after: After<W>) -> Option<String> {
        let inside = self.guard..self.guard + self.len();
        let want = |place: usize| match after {
            After::Filled(words) if inside.contains(&place) => words.get(place - self.guard).copied().unwrap_or_default(),
            _ => self.before[place],
        };
        let place = (0..self.words.len()).find(|&place| self.words[place] != want(place))?;
        let (found, at) = (self.words[place], place as isize - self.guard as isize);
        Some(format!("{what}, lent {}: {found:?} at {at}, not {:?}", self.len(), want(place)))
    }
}

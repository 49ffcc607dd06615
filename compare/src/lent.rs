//! Lent memory: filled with a pattern before a call, with guard words around it, and looked at afterwards, word by word.

/// Words around what is lent, which a call must not touch.
const GUARD: usize = 4;

pub trait Word: Copy + Into<u64> {
    /// A word that is neither 0 nor a likely answer, another for each place.
    fn pattern(place: usize) -> Self;
}

impl Word for u8 {
    fn pattern(place: usize) -> u8 {
        0xa5 ^ (place as u8 | 2)
    }
}

impl Word for u32 {
    fn pattern(place: usize) -> u32 {
        0xa5a5_5a5a ^ place as u32
    }
}

impl Word for u64 {
    fn pattern(place: usize) -> u64 {
        0xa5a5_5a5a_a5a5_5a5a ^ place as u64
    }
}

pub struct Words<W> {
    words: Vec<W>,
    length: usize,
}

impl<W: Word> Words<W> {
    /// So many words of pattern, guarded.
    pub fn lent(length: usize) -> Words<W> {
        Words { words: (0..length + 2 * GUARD).map(W::pattern).collect(), length }
    }

    /// What is lent.
    pub fn slice(&mut self) -> &mut [W] {
        &mut self.words[GUARD..GUARD + self.length]
    }
}

/// Adds a line to `found` where the words are not `wanted` and zeros behind, or not as they were lent where nothing may be written; or where
/// a guard was touched.
pub fn expect<W: Word>(found: &mut Vec<String>, what: &str, words: &Words<W>, wanted: Option<Vec<u64>>) {
    let inside = GUARD..GUARD + words.length;
    let want = |place: usize| match &wanted {
        Some(w) if inside.contains(&place) => w.get(place - GUARD).copied().unwrap_or(0),
        _ => W::pattern(place).into(),
    };
    let wrong = words.words.iter().enumerate().find(|&(place, &word)| word.into() != want(place));
    if let Some((place, &word)) = wrong {
        found.push(format!("{what}: {} at {}, not {}", word.into(), place as isize - GUARD as isize, want(place)));
    }
}

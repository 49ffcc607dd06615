//! The proved calls. A listing is lent as columns of words; what a call writes, and when, is in include/javrenzu.h.
//! `engine` has them with the engine's own types and signatures.

pub mod engine;

/// The number of the question that a listing, an output, a working space or a text was refused by, 1 to 10.
pub type Refusal = u8;

/// A listing in memory.
#[derive(Debug, Clone, Copy)]
pub struct Listing<'a> {
    /// One word a line: `token_end * 512 + has_address * 256 + indent`.
    pub lines: &'a [u32],
    /// One word a token: `text_end * 256 + kind`.
    pub tokens: &'a [u32],
    /// The tokens' UTF-8, end to end.
    pub text: &'a [u8],
}

/// The number of a token that has no family.
pub const NO_FAMILY: u32 = u32::MAX;

/// The words of working space that the web call asks for a listing of n lines.
pub const fn working_space(n: usize) -> usize {
    4 * n * n.div_ceil(64) + 8 * n + 64
}

/// The library's functions as C sees them; a slice is a pointer and a length.
pub mod library {
    extern "C" {
        #[allow(clippy::too_many_arguments)] // a slice is a pointer and a length
        pub fn javrenzu_webs(
            lines: *const u32, lines_len: usize, tokens: *const u32, tokens_len: usize, text: *const u8, text_len: usize,
            numbers: *mut u32, numbers_len: usize, marks: *mut u8, marks_len: usize, space: *mut u64, space_len: usize, sweeps: *mut usize,
        ) -> usize;
        #[allow(clippy::too_many_arguments)]
        pub fn javrenzu_splits(
            lines: *const u32, lines_len: usize, tokens: *const u32, tokens_len: usize, text: *const u8, text_len: usize,
            numbers: *mut u32, numbers_len: usize, marks: *mut u8, marks_len: usize,
        ) -> usize;
        #[allow(clippy::too_many_arguments)]
        pub fn javrenzu_choose(
            lines: *const u32, lines_len: usize, tokens: *const u32, tokens_len: usize, text: *const u8, text_len: usize,
            numbers: *mut u32, numbers_len: usize, marks: *mut u8, marks_len: usize, space: *mut u64, space_len: usize,
            choice: *mut usize, sweeps: *mut usize,
        ) -> usize;
        #[allow(clippy::too_many_arguments)]
        pub fn javrenzu_recover_loops(
            lines: *const u32, lines_len: usize, addresses: *const u64, addresses_len: usize, tokens: *const u32, tokens_len: usize,
            text: *const u8, text_len: usize, rows: *mut u32, rows_len: usize, places: *mut u64, places_len: usize,
            words: *mut u32, words_len: usize, bytes: *mut u8, bytes_len: usize, nlines: *mut usize, ntokens: *mut usize, nbytes: *mut usize,
        ) -> usize;
        #[allow(clippy::too_many_arguments)]
        pub fn javrenzu_recover_goto_loops(
            lines: *const u32, lines_len: usize, addresses: *const u64, addresses_len: usize, tokens: *const u32, tokens_len: usize,
            text: *const u8, text_len: usize, rows: *mut u32, rows_len: usize, places: *mut u64, places_len: usize,
            words: *mut u32, words_len: usize, bytes: *mut u8, bytes_len: usize, nlines: *mut usize, ntokens: *mut usize, nbytes: *mut usize,
        ) -> usize;
        #[allow(clippy::too_many_arguments)]
        pub fn javrenzu_read_json(
            json: *const u8, json_len: usize, lines: *mut u32, lines_len: usize, addresses: *mut u64, addresses_len: usize,
            tokens: *mut u32, tokens_len: usize, text: *mut u8, text_len: usize, nlines: *mut usize, ntokens: *mut usize, nbytes: *mut usize,
        ) -> usize;
        #[allow(clippy::too_many_arguments)]
        pub fn javrenzu_write_json(
            lines: *const u32, lines_len: usize, addresses: *const u64, addresses_len: usize, tokens: *const u32, tokens_len: usize,
            text: *const u8, text_len: usize, json: *mut u8, json_len: usize, nbytes: *mut usize,
        ) -> usize;
    }
}

/// What a call answers whose refusal is that number, 0 for none.
fn answered<T>(refusal: usize, value: T) -> Result<T, Refusal> {
    if refusal == 0 { Ok(value) } else { Err(refusal as Refusal) }
}

/// Web numbers and definition marks, one of each a token; answers the total of sweeps.
pub fn webs(listing: Listing, numbers: &mut [u32], marks: &mut [u8], space: &mut [u64]) -> Result<usize, Refusal> {
    let Listing { lines, tokens, text } = listing;
    let mut sweeps = 0;
    // SAFETY: each pointer goes with the length of its slice, `sweeps` is a word of its own, and the library is proved to stay within them.
    let refusal = unsafe {
        library::javrenzu_webs(
            lines.as_ptr(), lines.len(), tokens.as_ptr(), tokens.len(), text.as_ptr(), text.len(),
            numbers.as_mut_ptr(), numbers.len(), marks.as_mut_ptr(), marks.len(), space.as_mut_ptr(), space.len(), &mut sweeps,
        )
    };
    answered(refusal, sweeps)
}

/// Split numbers and marks, one of each a token.
pub fn splits(listing: Listing, numbers: &mut [u32], marks: &mut [u8]) -> Result<(), Refusal> {
    let Listing { lines, tokens, text } = listing;
    // SAFETY: each pointer goes with the length of its slice, and the library is proved to stay within them.
    let refusal = unsafe {
        library::javrenzu_splits(
            lines.as_ptr(), lines.len(), tokens.as_ptr(), tokens.len(), text.as_ptr(), text.len(),
            numbers.as_mut_ptr(), numbers.len(), marks.as_mut_ptr(), marks.len(),
        )
    };
    answered(refusal, ())
}

/// What the chooser chose: webs, with the total of sweeps, or splits.
#[derive(Debug, Clone, Copy, PartialEq, Eq)]
pub enum Chosen {
    Webs(usize),
    Splits,
}

/// Webs, or splits where webs refuse 7, 8 or 9.
pub fn choose(listing: Listing, numbers: &mut [u32], marks: &mut [u8], space: &mut [u64]) -> Result<Chosen, Refusal> {
    let Listing { lines, tokens, text } = listing;
    let (mut choice, mut sweeps) = (0, 0);
    // SAFETY: each pointer goes with the length of its slice, `choice` and `sweeps` are words of their own, and the library is proved to stay
    // within them.
    let refusal = unsafe {
        library::javrenzu_choose(
            lines.as_ptr(), lines.len(), tokens.as_ptr(), tokens.len(), text.as_ptr(), text.len(),
            numbers.as_mut_ptr(), numbers.len(), marks.as_mut_ptr(), marks.len(), space.as_mut_ptr(), space.len(), &mut choice, &mut sweeps,
        )
    };
    answered(refusal, if choice == 1 { Chosen::Webs(sweeps) } else { Chosen::Splits })
}

/// The columns that a loop pass or the JSON reader fills.
#[derive(Debug)]
pub struct Destination<'a> {
    pub lines: &'a mut [u32],
    pub addresses: &'a mut [u64],
    pub tokens: &'a mut [u32],
    pub text: &'a mut [u8],
}

/// How much of them is filled.
#[derive(Debug, Clone, Copy, PartialEq, Eq)]
pub struct Counts {
    pub lines: usize,
    pub tokens: usize,
    pub text: usize,
}

/// A loop pass of the library.
type Pass = unsafe extern "C" fn(
    *const u32, usize, *const u64, usize, *const u32, usize, *const u8, usize,
    *mut u32, usize, *mut u64, usize, *mut u32, usize, *mut u8, usize, *mut usize, *mut usize, *mut usize,
) -> usize;

fn run(pass: Pass, listing: Listing, addresses: &[u64], out: Destination) -> Result<Counts, Refusal> {
    let Listing { lines, tokens, text } = listing;
    let (mut nlines, mut ntokens, mut nbytes) = (0, 0, 0);
    // SAFETY: each pointer goes with the length of its slice, the counts are words of their own, and the library is proved to stay within them.
    let refusal = unsafe {
        pass(
            lines.as_ptr(), lines.len(), addresses.as_ptr(), addresses.len(), tokens.as_ptr(), tokens.len(), text.as_ptr(), text.len(),
            out.lines.as_mut_ptr(), out.lines.len(), out.addresses.as_mut_ptr(), out.addresses.len(),
            out.tokens.as_mut_ptr(), out.tokens.len(), out.text.as_mut_ptr(), out.text.len(), &mut nlines, &mut ntokens, &mut nbytes,
        )
    };
    answered(refusal, Counts { lines: nlines, tokens: ntokens, text: nbytes })
}

/// Guarded do-while loops made `while` and `for`. The destination needs as many lines, 8 tokens and 32 bytes more a line.
pub fn recover_loops(listing: Listing, addresses: &[u64], out: Destination) -> Result<Counts, Refusal> {
    run(library::javrenzu_recover_loops, listing, addresses, out)
}

/// Labels and gotos made `while` and `for`. The destination needs what `recover_loops` needs.
pub fn recover_goto_loops(listing: Listing, addresses: &[u64], out: Destination) -> Result<Counts, Refusal> {
    run(library::javrenzu_recover_goto_loops, listing, addresses, out)
}

/// The listing that a JSON text holds.
pub fn read_json(json: &[u8], out: Destination) -> Result<Counts, Refusal> {
    let (mut nlines, mut ntokens, mut nbytes) = (0, 0, 0);
    // SAFETY: each pointer goes with the length of its slice, the counts are words of their own, and the library is proved to stay within them.
    let refusal = unsafe {
        library::javrenzu_read_json(
            json.as_ptr(), json.len(), out.lines.as_mut_ptr(), out.lines.len(), out.addresses.as_mut_ptr(), out.addresses.len(),
            out.tokens.as_mut_ptr(), out.tokens.len(), out.text.as_mut_ptr(), out.text.len(), &mut nlines, &mut ntokens, &mut nbytes,
        )
    };
    answered(refusal, Counts { lines: nlines, tokens: ntokens, text: nbytes })
}

/// The JSON text of a listing; answers its length.
pub fn write_json(listing: Listing, addresses: &[u64], json: &mut [u8]) -> Result<usize, Refusal> {
    let Listing { lines, tokens, text } = listing;
    let mut nbytes = 0;
    // SAFETY: each pointer goes with the length of its slice, `nbytes` is a word of its own, and the library is proved to stay within them.
    let refusal = unsafe {
        library::javrenzu_write_json(
            lines.as_ptr(), lines.len(), addresses.as_ptr(), addresses.len(), tokens.as_ptr(), tokens.len(), text.as_ptr(), text.len(),
            json.as_mut_ptr(), json.len(), &mut nbytes,
        )
    };
    answered(refusal, nbytes)
}

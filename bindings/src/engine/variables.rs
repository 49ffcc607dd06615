//! Which occurrences of a register are one variable: webs, or split points.

use std::collections::HashMap;

use super::columns::Columns;
use super::PseudoLine;
use crate::{working_space, Chosen, Listing, Refusal, NO_FAMILY};

/// The variable (web) that every register occurrence belongs to.
#[derive(Debug, Clone, Default)]
pub struct Webs {
    families: HashMap<String, Family>,
    sweeps: usize,
}

/// The numbers of one family's webs; a line that is not here has web 0.
#[derive(Debug, Clone, Default)]
struct Family {
    /// A line that overwrites the family: the web of the new value.
    defs: HashMap<usize, u32>,
    /// A line that reads it: the web of the value read.
    uses: HashMap<usize, u32>,
}

impl Webs {
    /// Variable key of the register `fam` appearing as token `tok` of `line`.
    pub fn key(&self, fam: &str, line: usize, tok: usize) -> String {
        let family = self.families.get(fam);
        let def = family.filter(|_| tok == 0).and_then(|f| f.defs.get(&line));
        let number = def.or_else(|| family.and_then(|f| f.uses.get(&line)));
        format!("{fam}#{}", number.unwrap_or(&0))
    }

    /// Whether `line` starts a fresh value of `fam` (a plain overwrite).
    pub fn is_def(&self, fam: &str, line: usize) -> bool {
        self.families.get(fam).is_some_and(|f| f.defs.contains_key(&line))
    }

    /// The total number of sweeps over the lines; the original does not report it.
    pub fn sweeps(&self) -> usize {
        self.sweeps
    }
}

/// The webs, or nothing where a listing is refused, above all where its structure cannot be read.
pub fn recover(lines: &[PseudoLine]) -> Option<Webs> {
    try_recover(lines).ok()
}

/// `recover`, or its refusal: 1, too large; 7, fewer than two lines; 8, a brace does not match; 9, a goto leads to no label.
pub fn try_recover(lines: &[PseudoLine]) -> Result<Webs, Refusal> {
    let (sweeps, entries) = numbered(lines, |listing, e| crate::webs(listing, &mut e.numbers, &mut e.marks, &mut space(listing)))?;
    Ok(entries.webs(lines, sweeps))
}

/// Top-level overwrites of each register that start a new, independent variable; none where a listing is refused.
pub fn split_points(lines: &[PseudoLine]) -> HashMap<String, Vec<usize>> {
    try_split_points(lines).unwrap_or_default()
}

/// `split_points`, or the only refusal, 1: too large.
pub fn try_split_points(lines: &[PseudoLine]) -> Result<HashMap<String, Vec<usize>>, Refusal> {
    let ((), entries) = numbered(lines, |listing, e| crate::splits(listing, &mut e.numbers, &mut e.marks))?;
    Ok(entries.split_points(lines))
}

/// How register occurrences are grouped into variables.
#[derive(Debug, Clone)]
pub enum Seg {
    /// Reaching definitions over the structured code.
    Webs(Webs),
    /// Top-level overwrites with no jump across them (used when the structure cannot be read).
    Old(HashMap<String, Vec<usize>>),
}

impl Seg {
    /// Webs where they are asked for and the structure can be read, else split points; a listing beyond the limits has one variable a register.
    pub fn new(lines: &[PseudoLine], webs: bool) -> Seg {
        Seg::try_new(lines, webs).unwrap_or_else(|_| Seg::Old(HashMap::new()))
    }

    /// `new`, or the only refusal, 1: too large.
    pub fn try_new(lines: &[PseudoLine], webs: bool) -> Result<Seg, Refusal> {
        if !webs {
            return try_split_points(lines).map(Seg::Old);
        }
        let (chosen, entries) = numbered(lines, |listing, e| crate::choose(listing, &mut e.numbers, &mut e.marks, &mut space(listing)))?;
        Ok(match chosen {
            Chosen::Webs(sweeps) => Seg::Webs(entries.webs(lines, sweeps)),
            Chosen::Splits => Seg::Old(entries.split_points(lines)),
        })
    }

    /// Variable key of the register `f` at token `tok` of `line`: family + segment.
    pub fn key(&self, f: &str, line: usize, tok: usize) -> String {
        match self {
            Seg::Webs(w) => w.key(f, line, tok),
            Seg::Old(splits) => format!("{f}#{}", splits.get(f).map_or(0, |v| v.iter().filter(|&&k| k <= line).count())),
        }
    }

    /// Whether this occurrence is the plain overwrite that starts a fresh value.
    pub fn starts(&self, f: &str, line: usize, tok: usize) -> bool {
        match self {
            Seg::Webs(w) => tok == 0 && w.is_def(f, line),
            Seg::Old(splits) => splits.get(f).is_some_and(|v| v.contains(&line)),
        }
    }
}

/// One number and one mark for each token, as a call fills them.
struct Entries {
    numbers: Vec<u32>,
    marks: Vec<u8>,
}

/// What a call that numbers tokens answers, with what it fills.
fn numbered<A>(lines: &[PseudoLine], call: impl FnOnce(Listing, &mut Entries) -> Result<A, Refusal>) -> Result<(A, Entries), Refusal> {
    let columns = Columns::of(lines)?;
    let tokens = columns.listing().tokens.len();
    let mut entries = Entries { numbers: vec![0; tokens], marks: vec![0; tokens] };
    let answer = call(columns.listing(), &mut entries)?;
    Ok((answer, entries))
}

/// The working space that the web call and the chooser ask for.
fn space(listing: Listing) -> Vec<u64> {
    vec![0; working_space(listing.lines.len())]
}

impl Entries {
    /// Line, family, number and mark of every token that has a family.
    fn registers<'a>(&'a self, lines: &'a [PseudoLine]) -> impl Iterator<Item = (usize, &'a str, u32, bool)> {
        let tokens = lines.iter().enumerate().flat_map(|(line, l)| l.tokens.iter().map(move |t| (line, t.t.as_str())));
        let entries = self.numbers.iter().zip(&self.marks).map(|(&number, &mark)| (number, mark == 1));
        let registers = tokens.zip(entries).filter(|&(_, (number, _))| number != NO_FAMILY);
        registers.map(|((line, name), (number, mark))| (line, family_name(name), number, mark))
    }

    fn webs(&self, lines: &[PseudoLine], sweeps: usize) -> Webs {
        let mut families: HashMap<String, Family> = HashMap::new();
        for (line, name, number, mark) in self.registers(lines) {
            let family = families.entry(name.to_string()).or_default();
            let table = if mark { &mut family.defs } else { &mut family.uses };
            table.insert(line, number);
        }
        Webs { families, sweeps }
    }

    fn split_points(&self, lines: &[PseudoLine]) -> HashMap<String, Vec<usize>> {
        let mut points: HashMap<String, Vec<usize>> = HashMap::new();
        for (line, name, _, _) in self.registers(lines).filter(|&(_, _, _, mark)| mark) {
            points.entry(name.to_string()).or_default().push(line);
        }
        points
    }
}

/// The family's name of a register that the library has given a number, so that it has a family.
fn family_name(register: &str) -> &str {
    match register {
        "rax" | "eax" | "ax" | "al" | "ah" => "rax",
        "rbx" | "ebx" | "bx" | "bl" | "bh" => "rbx",
        "rcx" | "ecx" | "cx" | "cl" | "ch" => "rcx",
        "rdx" | "edx" | "dx" | "dl" | "dh" => "rdx",
        "rsi" | "esi" | "si" | "sil" => "rsi",
        "rdi" | "edi" | "di" | "dil" => "rdi",
        "rbp" | "ebp" | "bp" | "bpl" => "rbp",
        "rsp" | "esp" | "sp" | "spl" => "rsp",
        var if var.starts_with("var_") => var,
        numbered => numbered.trim_end_matches(|c: char| !c.is_ascii_digit()),
    }
}

//! The JSON of document 01: a strict reader over bytes, and the writer.
//!
//! The reader takes RFC 8259 text of the one shape
//! `[{"address":null,"indent":1,"tokens":[{"t":"}","k":"punct"}]}]`, white space wherever RFC 8259 allows it, within
//! question 1's limits. The writer puts no blanks and escapes only quote, backslash and codes below 32.

use std::path::{Path, PathBuf};
use std::{fs, io};

use crate::columns::KINDS;
use crate::model::{Token, TokenKind};
use crate::pseudo::PseudoLine;
use crate::questions::{MAX_LINES, MAX_TEXT, MAX_TOKENS};
use crate::random::Random;

/// The files `*.json` of a folder, in the order of their names.
pub fn files(dir: &Path) -> io::Result<Vec<PathBuf>> {
    let files: Result<Vec<PathBuf>, _> = fs::read_dir(dir)?.map(|entry| entry.map(|e| e.path())).collect();
    let mut files = files?;
    files.retain(|f| f.extension().is_some_and(|x| x == "json"));
    files.sort();
    Ok(files)
}

/// The text, and so many copies of it with one to three bytes changed, dropped or doubled.
pub fn copies(text: &[u8], count: usize) -> impl Iterator<Item = Vec<u8>> + '_ {
    let mut r = Random::new(text.len() as u64, 1);
    let damaged = move |_| {
        let mut copy = text.to_vec();
        for _ in 0..r.between(1, 3) {
            let at = r.below(copy.len().max(1));
            match r.below(4) {
                _ if copy.is_empty() => copy.push(r.bits() as u8),
                0 => copy[at] = r.bits() as u8,
                1 => copy[at] = r.pick(b"\"\\{}[]:,0123456789 u\n"),
                2 => _ = copy.remove(at),
                _ => copy.insert(at, copy[at]),
            }
        }
        copy
    };
    std::iter::once(text.to_vec()).chain((0..count).map(damaged))
}

/// The names of the kinds, in the order of their numbers.
const NAMES: [&str; 8] = ["text", "register", "number", "keyword", "symbol", "address", "punct", "prefix"];

/// The listing that the bytes write, or the reason why they are not taken.
pub fn read(bytes: &[u8]) -> Result<Vec<PseudoLine>, String> {
    let mut r = Reader { bytes, at: 0, tokens: 0, text: 0 };
    let lines = r.list(|r, done| if done < MAX_LINES { r.line() } else { r.fail("at most 1,024 lines") })?;
    r.blanks();
    if r.at < bytes.len() {
        return r.fail("nothing after the array");
    }
    Ok(lines)
}

/// The bytes, how far they are read, and how many tokens and text bytes were taken so far.
struct Reader<'a> {
    bytes: &'a [u8],
    at: usize,
    tokens: usize,
    text: usize,
}

impl Reader<'_> {
    fn fail<T>(&self, wanted: &str) -> Result<T, String> {
        Err(format!("byte {}: {wanted}", self.at))
    }

    fn peek(&self) -> Option<u8> {
        self.bytes.get(self.at).copied()
    }

    fn blanks(&mut self) {
        while matches!(self.peek(), Some(b' ' | b'\t' | b'\n' | b'\r')) {
            self.at += 1;
        }
    }

    /// Takes the bytes if they stand next.
    fn take(&mut self, bytes: &[u8]) -> bool {
        let found = self.bytes[self.at..].starts_with(bytes);
        self.at += if found { bytes.len() } else { 0 };
        found
    }

    /// Blanks, then one structural character.
    fn mark(&mut self, c: u8) -> Result<(), String> {
        self.blanks();
        if self.take(&[c]) {
            return Ok(());
        }
        self.fail(&format!("`{}` wanted", c as char))
    }

    /// A list of elements; `element` is told how many came before.
    fn list<T>(&mut self, mut element: impl FnMut(&mut Self, usize) -> Result<T, String>) -> Result<Vec<T>, String> {
        self.mark(b'[')?;
        let mut out = Vec::new();
        self.blanks();
        if self.take(b"]") {
            return Ok(out);
        }
        loop {
            out.push(element(self, out.len())?);
            self.blanks();
            if self.take(b"]") {
                return Ok(out);
            }
            self.mark(b',')?;
        }
    }

    /// A member's name as written, its colon and the blanks before its value.
    fn name(&mut self, name: &str) -> Result<(), String> {
        self.blanks();
        if !self.take(format!("\"{name}\"").as_bytes()) {
            return self.fail(&format!("member \"{name}\" wanted"));
        }
        self.mark(b':')?;
        self.blanks();
        Ok(())
    }

    fn line(&mut self) -> Result<PseudoLine, String> {
        self.mark(b'{')?;
        self.name("address")?;
        let address = if self.take(b"null") { None } else { Some(self.number(u64::MAX)?) };
        self.mark(b',')?;
        self.name("indent")?;
        let indent = self.number(255)? as u8;
        self.mark(b',')?;
        self.name("tokens")?;
        let tokens = self.list(|r, _| r.token())?;
        self.mark(b'}')?;
        Ok(PseudoLine { address, indent, tokens })
    }

    fn token(&mut self) -> Result<Token, String> {
        self.tokens += 1;
        if self.tokens > MAX_TOKENS {
            return self.fail("at most 16,384 tokens");
        }
        self.mark(b'{')?;
        self.name("t")?;
        let t = self.string()?;
        self.text += t.len();
        if self.text > MAX_TEXT {
            return self.fail("at most 262,144 text bytes");
        }
        self.mark(b',')?;
        self.name("k")?;
        let k = self.kind()?;
        self.mark(b'}')?;
        Ok(Token { t, k })
    }

    fn kind(&mut self) -> Result<TokenKind, String> {
        let found = NAMES.iter().position(|name| self.take(format!("\"{name}\"").as_bytes()));
        found.map(|i| KINDS[i]).map_or_else(|| self.fail("a kind wanted"), Ok)
    }

    /// A whole number without sign, fraction, exponent or leading zero, at most `most`.
    fn number(&mut self, most: u64) -> Result<u64, String> {
        let start = self.at;
        while self.peek().is_some_and(|b| b.is_ascii_digit()) {
            self.at += 1;
        }
        let digits = &self.bytes[start..self.at];
        if digits.is_empty() || (digits.len() > 1 && digits[0] == b'0') || matches!(self.peek(), Some(b'.' | b'e' | b'E')) {
            return self.fail("a whole number wanted");
        }
        let times_ten = |n: u64, d: &u8| n.checked_mul(10)?.checked_add(u64::from(d - b'0'));
        let value = digits.iter().try_fold(0, times_ten);
        value.filter(|&v| v <= most).map_or_else(|| self.fail(&format!("a number of at most {most} wanted")), Ok)
    }

    fn string(&mut self) -> Result<String, String> {
        self.mark(b'"')?;
        let mut out = Vec::new();
        loop {
            match self.peek() {
                Some(b'"') => break,
                Some(b'\\') => {
                    let c = self.escape()?;
                    out.extend_from_slice(c.encode_utf8(&mut [0; 4]).as_bytes());
                }
                Some(b) if b >= 32 => {
                    out.push(b);
                    self.at += 1;
                }
                _ => return self.fail("a string without control codes wanted"),
            }
        }
        self.at += 1;
        String::from_utf8(out).or_else(|_| self.fail("UTF-8 wanted"))
    }

    /// One escape, a surrogate pair being one.
    fn escape(&mut self) -> Result<char, String> {
        self.at += 1;
        let letter = self.peek();
        self.at += 1;
        Ok(match letter {
            Some(c @ (b'"' | b'\\' | b'/')) => c as char,
            Some(b'b') => '\u{8}',
            Some(b'f') => '\u{c}',
            Some(b'n') => '\n',
            Some(b'r') => '\r',
            Some(b't') => '\t',
            Some(b'u') => return self.unicode(),
            _ => return self.fail("an escape wanted"),
        })
    }

    fn unicode(&mut self) -> Result<char, String> {
        let first = self.hex()?;
        let mut code = first;
        if (0xd800..0xdc00).contains(&first) && self.take(b"\\u") {
            let second = self.hex()?;
            if (0xdc00..0xe000).contains(&second) {
                code = 0x10000 + (first - 0xd800) * 0x400 + (second - 0xdc00);
            }
        }
        char::from_u32(code).map_or_else(|| self.fail("no lone surrogate"), Ok)
    }

    fn hex(&mut self) -> Result<u32, String> {
        let digits = self.bytes.get(self.at..self.at + 4).unwrap_or(&[]);
        let value = digits.iter().try_fold(0, |n, &d| Some(n * 16 + (d as char).to_digit(16)?));
        if digits.is_empty() || value.is_none() {
            return self.fail("four hexadecimal digits wanted");
        }
        self.at += 4;
        Ok(value.unwrap_or(0))
    }
}

/// The text of a listing.
pub fn write(lines: &[PseudoLine]) -> Vec<u8> {
    let lines: Vec<String> = lines.iter().map(line_text).collect();
    format!("[{}]", lines.join(",")).into_bytes()
}

fn line_text(l: &PseudoLine) -> String {
    let address = l.address.map_or("null".to_string(), |a| a.to_string());
    let tokens: Vec<String> = l.tokens.iter().map(token_text).collect();
    format!(r#"{{"address":{address},"indent":{},"tokens":[{}]}}"#, l.indent, tokens.join(","))
}

fn token_text(t: &Token) -> String {
    format!(r#"{{"t":"{}","k":"{}"}}"#, escaped(&t.t), NAMES[t.k as usize])
}

fn escaped(text: &str) -> String {
    let mut out = String::with_capacity(text.len());
    for c in text.chars() {
        match c {
            '"' => out.push_str("\\\""),
            '\\' => out.push_str("\\\\"),
            c if u32::from(c) < 32 => out.push_str(&format!("\\u{:04x}", u32::from(c))),
            c => out.push(c),
        }
    }
    out
}

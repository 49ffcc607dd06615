//! The engine's calls through the bindings and through the original: the passes and `Seg` in the engine's own order, on generated listings of all
//! kinds. `LISTINGS=20 cargo test --release` runs twenty times as many.

use std::collections::BTreeSet;

use javrenzu::engine::{self, Seg, Token, TokenKind};
use oracle::{answers, notation};
use oracle::generate::{listing, Kind};
use oracle::model::TokenKind as OriginalKind;
use oracle::pseudo::PseudoLine as OriginalLine;
use oracle::questions::{refuse_lines, MAX_LINES, MAX_TEXT, MAX_TOKENS};
use oracle::variables::Variables;

const SEED: u64 = 9_001;

/// How many listings of a kind.
const COUNTS: [(Kind, u64); 6] =
    [(Kind::Plausible, 600), (Kind::Damaged, 600), (Kind::Tiny, 1_500), (Kind::Directed, 1_500), (Kind::Scaled, 90), (Kind::Full, 9)];

/// Names that are asked for whether or not they stand in a listing; some are no families.
const NAMES: [&str; 9] = ["rax", "rcx", "rsp", "r8", "var_8", "eax", "rip", "x", ""];

/// No more families of a listing are asked for on all its lines.
const FAMILIES: usize = 24;

fn kind(k: OriginalKind) -> TokenKind {
    match k {
        OriginalKind::Text => TokenKind::Text,
        OriginalKind::Register => TokenKind::Register,
        OriginalKind::Number => TokenKind::Number,
        OriginalKind::Keyword => TokenKind::Keyword,
        OriginalKind::Symbol => TokenKind::Symbol,
        OriginalKind::Address => TokenKind::Address,
        OriginalKind::Punct => TokenKind::Punct,
        OriginalKind::Prefix => TokenKind::Prefix,
    }
}

fn of_engine(lines: &[OriginalLine]) -> Vec<engine::PseudoLine> {
    let tokens = |l: &OriginalLine| l.tokens.iter().map(|t| Token { t: t.t.clone(), k: kind(t.k) }).collect();
    lines.iter().map(|l| engine::PseudoLine { address: l.address, indent: l.indent, tokens: tokens(l) }).collect()
}

/// A loop pass of the original, and of the bindings in both forms.
struct Pass {
    original: fn(&[OriginalLine]) -> Result<Vec<OriginalLine>, u8>,
    plain: fn(&mut Vec<engine::PseudoLine>),
    tried: fn(&mut Vec<engine::PseudoLine>) -> Result<(), u8>,
}

const LOOPS: Pass = Pass { original: answers::recover_loops, plain: engine::recover_loops, tried: engine::try_recover_loops };
const GOTO_LOOPS: Pass =
    Pass { original: answers::recover_goto_loops, plain: engine::recover_goto_loops, tried: engine::try_recover_goto_loops };

/// The listing after the pass, which both forms must leave; as it was where the pass refuses.
fn passed(pass: &Pass, lines: &[OriginalLine]) -> Vec<OriginalLine> {
    let (after, refusal) = match (pass.original)(lines) {
        Ok(after) => (after, Ok(())),
        Err(number) => (lines.to_vec(), Err(number)),
    };
    let (mut plain, mut tried) = (of_engine(lines), of_engine(lines));
    (pass.plain)(&mut plain);
    assert_eq!((pass.tried)(&mut tried), refusal);
    assert_eq!(plain, of_engine(&after));
    assert_eq!(tried, plain);
    after
}

/// `Seg` of the original, both ways, and `Seg`, `recover` and `split_points` of the bindings.
fn variables(lines: &[OriginalLine]) {
    let own = of_engine(lines);
    for webs in [true, false] {
        let original = Variables::new(lines, webs);
        let seg = Seg::new(&own, webs);
        assert_eq!(matches!(seg, Seg::Webs(_)), original.are_webs());
        same(lines, &original, &seg);
        same(lines, &original, &Seg::try_new(&own, webs).expect("a listing within the limits is not refused"));
    }
    match (engine::try_recover(&own), refuse_lines(lines)) {
        (Ok(webs), None) => {
            assert_eq!(webs.sweeps() as u64, oracle::sweeps(lines));
            same(lines, &Variables::new(lines, true), &Seg::Webs(webs));
            same(lines, &Variables::new(lines, true), &Seg::Webs(engine::recover(&own).expect("both forms answer")));
        }
        (refused, question) => {
            assert_eq!(refused.err(), question);
            assert!(engine::recover(&own).is_none());
        }
    }
    let points = engine::try_split_points(&own).expect("a listing within the limits is not refused");
    assert_eq!(points, engine::split_points(&own));
    same(lines, &Variables::new(lines, false), &Seg::Old(points));
}

/// Keys and starts at every register, and of each family on each line and behind the last, at tokens of every sort.
fn same(lines: &[OriginalLine], original: &Variables, own: &Seg) {
    let at = |family: &str, line: usize, tok: usize| {
        assert_eq!(own.key(family, line, tok), original.key(family, line, tok), "line {line}, token {tok}");
        assert_eq!(own.starts(family, line, tok), original.starts(family, line, tok), "{family} on line {line}, token {tok}");
        let Seg::Webs(webs) = own else { return };
        assert_eq!(webs.key(family, line, tok), original.key(family, line, tok));
        assert_eq!(webs.is_def(family, line), original.starts(family, line, 0));
    };
    let mut families = BTreeSet::from(NAMES.map(str::to_string));
    for (line, l) in lines.iter().enumerate() {
        for (tok, t) in l.tokens.iter().enumerate() {
            let Some(family) = answers::family_name(t) else { continue };
            at(&family, line, tok);
            if families.len() < FAMILIES {
                families.insert(family);
            }
        }
    }
    for line in 0..lines.len() + 2 {
        families.iter().for_each(|family| [0, 1, 5].iter().for_each(|&tok| at(family, line, tok)));
    }
}

/// The engine's order: `recover_goto_loops`, `recover_loops`, then the variables; and each call on the listing as it came.
#[test]
fn the_engines_order() {
    let times: u64 = std::env::var("LISTINGS").map_or(1, |n| n.parse().expect("LISTINGS is a number"));
    for (kind, count) in COUNTS {
        for index in 0..count * times {
            let lines = listing(kind, SEED, index);
            variables(&lines);
            passed(&LOOPS, &lines);
            variables(&passed(&LOOPS, &passed(&GOTO_LOOPS, &lines)));
        }
        println!("{kind:?}: {} listings of seed {SEED}", count * times);
    }
}

/// Two values of each register, the second read by one of its names.
#[test]
fn every_register_name() {
    let legacy = "rax eax ax al ah rbx ebx bx bl bh rcx ecx cx cl ch rdx edx dx dl dh rsi esi si sil rdi edi di dil rbp ebp bp bpl rsp esp sp spl";
    let others = "r8 r8d r8w r8b r8l r15 r15d r15w r15b r15l r0 r007d r123456789012b var_8 var_ var_8d r r8x r8dd rip arg_0 eip Rax";
    for name in legacy.split(' ').chain(others.split(' ')) {
        let token = oracle::model::Token { t: name.to_string(), k: OriginalKind::Register };
        let family = answers::family_name(&token).unwrap_or(name.to_string());
        let text = format!("0 int f()\n1 [r|{family}] = 1;\n1 [r|{family}] = 2;\n1 g([r|{name}]);\n1 [r|{name}] = 3;\n1 return [r|{family}];");
        variables(&notation::listing(&text));
    }
}

/// A listing of so many lines with so many tokens, then one token of so many bytes.
fn sized(lines: usize, tokens: usize, text: usize) -> Vec<engine::PseudoLine> {
    let token = |bytes: usize| Token { t: "x".repeat(bytes), k: TokenKind::Text };
    let mut all = vec![engine::PseudoLine { address: None, indent: 1, tokens: Vec::new() }; lines];
    all[0].tokens = vec![token(0); tokens - 1];
    all[lines - 1].tokens.push(token(text));
    all
}

#[test]
fn limits_are_those_of_question_1() {
    let most = sized(MAX_LINES, MAX_TOKENS, MAX_TEXT);
    assert_eq!(engine::try_recover_loops(&mut most.clone()), Ok(()));
    assert_eq!(engine::try_recover_goto_loops(&mut most.clone()), Ok(()));
    assert!(engine::try_recover(&most).is_ok());
    let beyond = [
        sized(MAX_LINES + 1, MAX_TOKENS, MAX_TEXT),
        sized(MAX_LINES, MAX_TOKENS + 1, MAX_TEXT),
        sized(MAX_LINES, MAX_TOKENS, MAX_TEXT + 1),
        sized(1 << 20, 1, 0),
    ];
    for lines in beyond {
        let mut after = lines.clone();
        engine::recover_loops(&mut after);
        assert_eq!(engine::try_recover_loops(&mut after), Err(1));
        engine::recover_goto_loops(&mut after);
        assert_eq!(engine::try_recover_goto_loops(&mut after), Err(1));
        assert_eq!(after, lines);
        assert_eq!(engine::try_recover(&lines).err(), Some(1));
        assert!(engine::recover(&lines).is_none());
        assert_eq!(engine::try_split_points(&lines), Err(1));
        assert_eq!(Seg::try_new(&lines, true).err(), Some(1));
        assert_eq!(Seg::new(&lines, true).key("rax", 3, 0), "rax#0");
    }
}

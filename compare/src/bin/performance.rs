//! `performance`: the proved library beside the original Rust, timed in one run, as a table in Markdown.

use std::hint::black_box;
use std::time::Instant;

use javrenzu::{working_space, Destination, Listing};
use oracle::columns::{encode, Columns};
use oracle::generate::{colliding_families, colliding_labels, creeping_back, full_buckets, listing, plausible, uncrossed, Kind};
use oracle::pseudo::PseudoLine;
use oracle::passes::{run, Pass};
use oracle::{answers, sweeps};

extern "C" {
    fn leaves_refusal(l: *const u32, ln: usize, t: *const u32, tn: usize, x: *const u8, xn: usize) -> usize;
    fn leaves_is_utf8(x: *const u8, xn: usize) -> usize;
}

/// Nanoseconds of one run: the least of several rounds of runs, or the first run where that takes a second.
fn nanoseconds(mut run: impl FnMut()) -> f64 {
    let start = Instant::now();
    run();
    if start.elapsed().as_secs() >= 1 {
        return start.elapsed().as_nanos() as f64;
    }
    let round = |run: &mut dyn FnMut()| {
        let (start, mut runs) = (Instant::now(), 0u32);
        while start.elapsed().as_millis() < 40 {
            run();
            runs += 1;
        }
        start.elapsed().as_nanos() as f64 / f64::from(runs)
    };
    (0..5).map(|_| round(&mut run)).fold(f64::INFINITY, f64::min)
}

/// A full-size listing, and the longest text of plain and of multi-byte characters.
fn texts() -> Vec<(&'static str, Vec<u8>)> {
    vec![("ASCII, 262,144 bytes", vec![b'x'; 262_144]), ("three bytes a character, 262,143 bytes", "€".repeat(87_381).into_bytes())]
}

fn questions() {
    println!("## Questions 1 to 3\n\nThe original asks none: its text is a `String`. Beside them stands `str::from_utf8` on the same text.\n");
    println!("| what | on | library, ns a byte | `str::from_utf8`, ns a byte | ratio |");
    println!("|---|---|---|---|---|");
    let row = |what: &str, on: &str, bytes: usize, own: f64, rust: f64| {
        println!("| {what} | {on} | {:.3} | {:.3} | {:.2} |", own / bytes as f64, rust / bytes as f64, own / rust);
    };
    for (name, text) in texts() {
        // SAFETY: the pointer goes with the slice's length.
        let own = nanoseconds(|| _ = black_box(unsafe { leaves_is_utf8(text.as_ptr(), text.len()) }));
        row("question 3 of one token", name, text.len(), own, nanoseconds(|| _ = black_box(std::str::from_utf8(&text))));
    }
    for index in [0, 1, 2] {
        let c = encode(&listing(Kind::Full, 1, index));
        // SAFETY: each pointer goes with its slice's length.
        let refusal = || unsafe { leaves_refusal(c.lines.as_ptr(), c.lines.len(), c.tokens.as_ptr(), c.tokens.len(), c.text.as_ptr(), c.text.len()) };
        let own = nanoseconds(|| _ = black_box(refusal()));
        let rust = nanoseconds(|| _ = black_box(std::str::from_utf8(&c.text)));
        let on = format!("listing {index}: {} lines, {} tokens, {} bytes", c.lines.len(), c.tokens.len(), c.text.len());
        row("questions 1 to 3", &on, c.text.len(), own, rust);
    }
}

/// The first plausible listing of about so many lines that the web call accepts.
fn accepted(lines: usize) -> Vec<PseudoLine> {
    let accepts = |l: &Vec<PseudoLine>| l.len() <= 1_024 && answers::recover(l);
    (1..).map(|seed| plausible(seed, lines)).find(accepts).expect("some listing is accepted")
}

/// What the web call is timed on.
fn webs_listings() -> Vec<(&'static str, Vec<PseudoLine>)> {
    let full = |index| listing(Kind::Full, 1, index);
    vec![
        ("plausible", accepted(10)),
        ("plausible", accepted(180)),
        ("plausible", accepted(850)),
        ("hundreds of families", full(2)),
        ("deep nesting with breaks", full(3)),
        ("hundreds of gotos", full(4)),
        ("hundreds of guarded loops", full(6)),
        ("a value creeps back, 1 family", creeping_back(1)),
        ("values creep back, 100 families", creeping_back(100)),
        ("values creep back, 1,022 families", creeping_back(1_022)),
        ("500 labels whose names collide, 2,500 gotos", colliding_labels()),
        ("498 labels in full buckets, 2,500 gotos to the last", full_buckets()),
        ("300 families whose names collide", colliding_families()),
    ]
}

fn listing_of(c: &Columns) -> Listing<'_> {
    Listing { lines: &c.lines, tokens: &c.tokens, text: &c.text }
}

/// One number and one mark for each token.
fn outputs(c: &Columns) -> (Vec<u32>, Vec<u8>) {
    (vec![0; c.tokens.len()], vec![0; c.tokens.len()])
}

/// A row of a table: a listing, its sizes, and other columns.
fn row(name: &str, c: &Columns, others: &[String]) {
    println!("| {name} | {} | {} | {} | {} |", c.lines.len(), c.tokens.len(), c.text.len(), others.join(" | "));
}

fn microseconds(nanoseconds: f64) -> String {
    format!("{:.1}", nanoseconds / 1e3)
}

/// Bytes in units of 1,024.
fn kilobytes(bytes: usize) -> String {
    format!("{:.1}", bytes as f64 / 1_024.0)
}

/// Nanoseconds of the library's web call, and the bytes that it is lent.
fn webs_cost(c: &Columns) -> (f64, usize) {
    let (mut numbers, mut marks) = outputs(c);
    let mut space = vec![0; working_space(c.lines.len())];
    let time = nanoseconds(|| _ = black_box(javrenzu::webs(listing_of(c), &mut numbers, &mut marks, &mut space)));
    (time, 5 * c.tokens.len() + 8 * space.len())
}

fn webs() {
    println!("\n## The web call\n\nThe library's call with its questions and per-token answers, beside the original's `recover` with the key and the mark of every token, and beside `recover` alone, which answers no token yet. The library is lent its answers and its working space.\n");
    println!("| listing | lines | tokens | bytes | sweeps | lent, KB | library, µs | original, µs | times faster | `recover` alone, µs | times faster |");
    println!("|---|---|---|---|---|---|---|---|---|---|---|");
    for (name, lines) in webs_listings() {
        let c = encode(&lines);
        let (own, lent) = webs_cost(&c);
        let all = nanoseconds(|| _ = black_box(answers::numbered(&lines)));
        let alone = nanoseconds(|| _ = black_box(answers::recover(&lines)));
        let times = |rust: f64| format!("{:.1}", rust / own);
        row(name, &c, &[sweeps(&lines).to_string(), kilobytes(lent), microseconds(own), microseconds(all), times(all), microseconds(alone), times(alone)]);
    }
}

/// The web call on plausible listings of about 20, 200 and 1,024 lines: the first 12 that it accepts of each.
fn plausible_webs() {
    println!("\n## The web call on plausible listings\n\nThe first 12 plausible listings of so many lines that the call accepts, by the sum of their times, and the listings with the least and the greatest ratio.\n");
    println!("| lines | tokens | library, µs | original, µs | times faster | least | greatest |");
    println!("|---|---|---|---|---|---|---|");
    for (about, least, most) in [(12, 18, 22), (180, 180, 220), (900, 900, 1_024)] {
        let accepts = |l: &Vec<PseudoLine>| (least..=most).contains(&l.len()) && answers::recover(l);
        let listings: Vec<_> = (1..).map(|seed| plausible(seed, about)).filter(accepts).take(12).collect();
        let times: Vec<_> = listings.iter().map(|l| (webs_cost(&encode(l)).0, nanoseconds(|| _ = black_box(answers::numbered(l))))).collect();
        let tokens: usize = listings.iter().flatten().map(|l| l.tokens.len()).sum();
        let (own, rust) = times.iter().fold((0.0, 0.0), |s, t| (s.0 + t.0, s.1 + t.1));
        let ratios = || times.iter().map(|t| t.1 / t.0);
        let (low, high) = (ratios().fold(f64::INFINITY, f64::min), ratios().fold(0.0, f64::max));
        println!("| {least} to {most} | {tokens} | {} | {} | {:.1} | {low:.1} | {high:.1} |", microseconds(own), microseconds(rust), rust / own);
    }
}

/// How the cost of the web call grows with the lines of plausible listings.
fn growth() {
    println!("\n## How the web call grows\n\nPlausible listings of more and more lines.\n");
    println!("| lines | tokens | bytes | lent, KB | library, µs | ns a line | original, µs | ns a line |");
    println!("|---|---|---|---|---|---|---|---|");
    for about in [10, 25, 50, 100, 200, 400, 850] {
        let lines = accepted(about);
        let c = encode(&lines);
        let (own, lent) = webs_cost(&c);
        let rust = nanoseconds(|| _ = black_box(answers::numbered(&lines)));
        let n = c.lines.len();
        let a_line = |time: f64| format!("{:.0}", time / n as f64);
        println!("| {n} | {} | {} | {} | {} | {} | {} | {} |", c.tokens.len(), c.text.len(), kilobytes(lent), microseconds(own), a_line(own), microseconds(rust), a_line(rust));
    }
}

/// What the split call is timed on.
fn splits_listings() -> Vec<(&'static str, Vec<PseudoLine>)> {
    vec![
        ("plausible", accepted(10)),
        ("plausible", accepted(180)),
        ("plausible", accepted(850)),
        ("hundreds of gotos, most definitions crossed", listing(Kind::Full, 1, 4)),
        ("hundreds of gotos and of definitions, none crossed", uncrossed()),
        ("hundreds of families", listing(Kind::Full, 1, 2)),
        ("500 labels whose names collide, 2,500 gotos", colliding_labels()),
        ("498 labels in full buckets, 2,500 gotos to the last", full_buckets()),
        ("300 families whose names collide", colliding_families()),
    ]
}

fn splits() {
    println!("\n## The split call\n\nThe library's call with its questions and per-token answers, beside the original's `Seg` with the key and the mark of every token, and beside `Seg` alone, which answers no token yet. The library is lent its answers.\n");
    println!("| listing | lines | tokens | bytes | lent, KB | library, µs | original, µs | times faster | `Seg` alone, µs | times faster |");
    println!("|---|---|---|---|---|---|---|---|---|---|");
    for (name, lines) in splits_listings() {
        let c = encode(&lines);
        let (mut numbers, mut marks) = outputs(&c);
        let own = nanoseconds(|| _ = black_box(javrenzu::splits(listing_of(&c), &mut numbers, &mut marks)));
        let alone = nanoseconds(|| _ = black_box(answers::split_points(&lines)));
        let all = nanoseconds(|| _ = black_box(answers::splits(&lines)));
        let times = |rust: f64| format!("{:.1}", rust / own);
        row(name, &c, &[kilobytes(5 * c.tokens.len()), microseconds(own), microseconds(all), times(all), microseconds(alone), times(alone)]);
    }
}

/// The chooser, where it chooses webs and where it chooses splits.
fn chooser() {
    println!("\n## The chooser\n\nThe library's call with its questions and per-token answers, beside the original's own choice with the key and the mark of every token. The library is lent its answers and its working space.\n");
    println!("| listing | lines | tokens | bytes | chosen | lent, KB | library, µs | original, µs | times faster |");
    println!("|---|---|---|---|---|---|---|---|---|");
    let refused = |about| (1..).map(|seed| plausible(seed, about)).find(|l| l.len() <= 1_024 && !answers::recover(l)).expect("some listing is refused");
    for lines in [10, 180, 850].into_iter().flat_map(|about| [accepted(about), refused(about)]) {
        let c = encode(&lines);
        let (mut numbers, mut marks) = outputs(&c);
        let mut space = vec![0; working_space(c.lines.len())];
        let choice = match javrenzu::choose(listing_of(&c), &mut numbers, &mut marks, &mut space) {
            Ok(javrenzu::Chosen::Webs(_)) => "webs",
            Ok(javrenzu::Chosen::Splits) => "splits",
            Err(_) => panic!("refused"),
        };
        let own = nanoseconds(|| _ = black_box(javrenzu::choose(listing_of(&c), &mut numbers, &mut marks, &mut space)));
        let rust = nanoseconds(|| _ = black_box(answers::chosen(&lines)));
        row("plausible", &c, &[choice.into(), kilobytes(5 * c.tokens.len() + 8 * space.len()), microseconds(own), microseconds(rust), format!("{:.1}", rust / own)]);
    }
}

/// What the loop passes are timed on.
fn passes_listings() -> Vec<(&'static str, Vec<PseudoLine>)> {
    let full = |index| listing(Kind::Full, 1, index);
    vec![
        ("plausible", plausible(1, 10)),
        ("plausible", plausible(1, 180)),
        ("plausible", plausible(1, 850)),
        ("262,143 bytes of text", full(0)),
        ("hundreds of labels and gotos", full(4)),
        ("hundreds of guarded loops", full(6)),
        ("hundreds of label and goto loops", full(7)),
        ("deep nests of labels", full(8)),
    ]
}

/// Nanoseconds of one of the library's passes, and the bytes that it is lent.
fn pass_cost(pass: Pass, c: &Columns) -> (f64, usize) {
    let n = c.lines.len();
    let (mut rows, mut places) = (vec![0; n], vec![0; n]);
    let (mut words, mut bytes) = (vec![0; c.tokens.len() + 8 * n], vec![0; c.text.len() + 32 * n]);
    let lent = 12 * n + 4 * words.len() + bytes.len();
    let time = nanoseconds(|| {
        let out = Destination { lines: &mut rows, addresses: &mut places, tokens: &mut words, text: &mut bytes };
        match pass {
            Pass::Loops => _ = black_box(javrenzu::recover_loops(listing_of(c), &c.addresses, out)),
            Pass::GotoLoops => _ = black_box(javrenzu::recover_goto_loops(listing_of(c), &c.addresses, out)),
        }
    });
    (time, lent)
}

fn passes() {
    println!("\n## The loop passes\n\nThe library's calls with their questions, each leaving its input and writing the whole listing anew into what it is lent, beside the original on a copy of its lines, which it edits in place, and beside it without the time of the copy.\n");
    for (name, pass) in [("recover_loops", Pass::Loops), ("recover_goto_loops", Pass::GotoLoops)] {
        println!("`{name}`:\n");
        println!("| listing | lines | tokens | bytes | lent, KB | library, µs | original, µs | times faster | without the copy, µs | times faster |");
        println!("|---|---|---|---|---|---|---|---|---|---|");
        for (name, lines) in passes_listings() {
            let c = encode(&lines);
            let (own, lent) = pass_cost(pass, &c);
            let copy = nanoseconds(|| _ = black_box(lines.to_vec()));
            let all = nanoseconds(|| _ = black_box(run(pass, &lines)));
            let times = |rust: f64| format!("{:.1}", rust / own);
            // Where the pass changes nothing the difference is lost in the noise of the copy.
            let (rest, rest_times) = if all - copy < all / 10.0 { ("-".into(), "-".into()) } else { (microseconds(all - copy), times(all - copy)) };
            row(name, &c, &[kilobytes(lent), microseconds(own), microseconds(all), times(all), rest, rest_times]);
        }
        println!();
    }
}

fn main() {
    println!("# Performance\n\nMade by `tools/performance`: the proved library beside the original Rust, one run, both optimised.\n");
    questions();
    webs();
    plausible_webs();
    growth();
    splits();
    chooser();
    passes();
}

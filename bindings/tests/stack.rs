//! No theorem bounds the stack, so it is measured: every call runs within a stack of 128 KiB, on listings of full size and of all other kinds.

use javrenzu::{choose, read_json, recover_goto_loops, recover_loops, splits, webs, working_space, write_json, Destination, Listing};
use oracle::columns::{encode, Columns};
use oracle::generate::{listing, Kind};

const STACK: usize = 128 * 1024;

fn every_call(c: &Columns) {
    let listing = Listing { lines: &c.lines, tokens: &c.tokens, text: &c.text };
    let (n, t, x) = (c.lines.len(), c.tokens.len(), c.text.len());
    let (mut numbers, mut marks, mut space) = (vec![0; t], vec![0; t], vec![0; working_space(n)]);
    _ = webs(listing, &mut numbers, &mut marks, &mut space);
    assert!(choose(listing, &mut numbers, &mut marks, &mut space).is_ok());
    assert!(splits(listing, &mut numbers, &mut marks).is_ok());
    let (mut lines, mut addresses, mut tokens, mut text) = (vec![0; n], vec![0; n], vec![0; t + 8 * n], vec![0; x + 32 * n]);
    _ = recover_loops(listing, &c.addresses, Destination { lines: &mut lines, addresses: &mut addresses, tokens: &mut tokens, text: &mut text });
    _ = recover_goto_loops(listing, &c.addresses, Destination { lines: &mut lines, addresses: &mut addresses, tokens: &mut tokens, text: &mut text });
    let mut json = vec![0; 100 * n + 64 * t + 6 * x + 2];
    let length = write_json(listing, &c.addresses, &mut json).expect("the text has room");
    let out = Destination { lines: &mut lines, addresses: &mut addresses, tokens: &mut tokens, text: &mut text };
    assert!(read_json(&json[..length], out).is_ok());
}

#[test]
fn calls_need_little_stack() {
    let kinds = [(Kind::Full, 18), (Kind::Scaled, 18), (Kind::Directed, 200), (Kind::Damaged, 200), (Kind::Plausible, 200)];
    let columns: Vec<Columns> = kinds.iter().flat_map(|&(kind, count)| (0..count).map(move |index| encode(&listing(kind, 3, index)))).collect();
    let thread = std::thread::Builder::new().stack_size(STACK).spawn(move || columns.iter().for_each(every_call));
    thread.expect("a thread can be made").join().expect("no call overflows the stack");
}

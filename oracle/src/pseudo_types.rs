// An excerpt of Altumptic/paranoia at 87f676eb02 (Apache-2.0), crates/paranoia-core/src/pseudo_types.rs: loop recovery and the splitting of variables; visibility and use lines changed, all other items left out.

use std::collections::HashMap;

use crate::model::{Token, TokenKind};
use crate::pseudo::PseudoLine;
use crate::pseudo_opt::{assignment, call_at, family, has_kw, is_label};

fn text(toks: &[Token]) -> String {
    toks.iter().map(|t| t.t.as_str()).collect()
}

fn tok(t: impl Into<String>, k: TokenKind) -> Token {
    Token { t: t.into(), k }
}

/// The condition tokens of `if (C) {` / `} while (C);`.
pub(crate) fn condition(l: &PseudoLine, kw: &str) -> Option<Vec<Token>> {
    let k = l.tokens.iter().position(|t| t.k == TokenKind::Keyword && t.t == kw)?;
    let open = l.tokens.get(k + 1)?;
    let last = l.tokens.last()?;
    if !open.t.starts_with(" (") {
        return None;
    }
    let mut c: Vec<Token> = l.tokens[k + 1..].to_vec();
    // Strip the leading " (" and the trailing ") {" / ");".
    let first = &mut c[0];
    first.t = first.t[2..].to_string();
    let suffix = if last.t.ends_with(") {") {
        ") {"
    } else if last.t.ends_with(");") {
        ");"
    } else {
        return None;
    };
    let n = c.len() - 1;
    let lt = &mut c[n];
    lt.t.truncate(lt.t.len() - suffix.len());
    c.retain(|t| !t.t.is_empty());
    Some(c)
}

/// `if (C) { do { B } while (C); }` → `while (C) { B }`, and with `x = init;` before it and
/// `x++;` / `x += n;` closing the body → `for (x = init; C; x++) { B }`.
pub(crate) fn recover_loops(lines: &mut Vec<PseudoLine>) {
    let mut i = 0;
    while i + 1 < lines.len() {
        let ind = lines[i].indent;
        let is_guard =
            lines[i].tokens.first().is_some_and(|t| t.k == TokenKind::Keyword && t.t == "if") && text(&lines[i].tokens).ends_with(") {");
        let next_is_do = has_kw(&lines[i + 1], "do") && lines[i + 1].indent == ind + 1;
        if !(is_guard && next_is_do) {
            i += 1;
            continue;
        }
        // The `} while (...)` closing this do, then the `}` closing the if.
        let Some(w) = (i + 2..lines.len()).find(|&j| lines[j].indent <= ind + 1 && !is_label(&lines[j])) else { break };
        let closes = lines.get(w + 1).is_some_and(|l| l.indent == ind && text(&l.tokens) == "}");
        let (Some(c1), Some(c2)) = (condition(&lines[i], "if"), condition(&lines[w], "while")) else {
            i += 1;
            continue;
        };
        if lines[w].indent != ind + 1 || !closes || text(&c1) != text(&c2) {
            i += 1;
            continue;
        }
        // Rewrite: while (C) { body }
        let addr = lines[i].address;
        let mut head = vec![tok("while", TokenKind::Keyword), tok(" (", TokenKind::Punct)];
        head.extend(c1.clone());
        head.push(tok(") {", TokenKind::Punct));
        lines[i] = PseudoLine { address: addr, indent: ind, tokens: head };
        lines.remove(w); // `} while (C);` — the if's `}` now closes the while
        lines.remove(i + 1); // `do {`
        let body_end = w - 1; // index of the closing `}` after removals
        for l in &mut lines[i + 1..body_end] {
            l.indent -= 1;
        }
        to_for(lines, i);
        i += 1;
    }
}

/// Negates a condition: flips a single top-level comparison, otherwise wraps it in `!( )`.
fn negate_cond(c: &[Token]) -> Vec<Token> {
    const OPS: [(&str, &str); 6] = [(" == ", " != "), (" != ", " == "), (" <= ", " > "), (" >= ", " < "), (" < ", " >= "), (" > ", " <= ")];
    let mut depth = 0i32;
    let mut found: Option<(usize, usize, &str)> = None;
    let mut count = 0;
    for (i, t) in c.iter().enumerate() {
        if t.k != TokenKind::Punct {
            if t.k == TokenKind::Keyword {
                depth += t.t.matches('(').count() as i32 - t.t.matches(')').count() as i32;
            }
            continue;
        }
        let s = &t.t;
        let mut pos = 0;
        while pos < s.len() {
            let rest = &s[pos..];
            if depth == 0 {
                if rest.starts_with(" && ") || rest.starts_with(" || ") {
                    count += 2;
                }
                if let Some((op, _)) = OPS.iter().find(|(op, _)| rest.starts_with(op)) {
                    count += 1;
                    found = Some((i, pos, op));
                    pos += op.len();
                    continue;
                }
            }
            let ch = rest.chars().next().unwrap();
            match ch {
                '(' => depth += 1,
                ')' => depth -= 1,
                _ => {}
            }
            pos += ch.len_utf8();
        }
    }
    if let (1, Some((i, pos, op))) = (count, found) {
        let flipped = OPS.iter().find(|(o, _)| *o == op).unwrap().1;
        let mut v = c.to_vec();
        let t = &mut v[i].t;
        t.replace_range(pos..pos + op.len(), flipped);
        return v;
    }
    let mut v = vec![tok("!(", TokenKind::Punct)];
    v.extend(c.iter().cloned());
    v.push(tok(")", TokenKind::Punct));
    crate::pseudo_opt::merge(v)
}

/// `loc_H: body; goto loc_H; loc_E:` → `while (1) { body }` (or `while (!C)` when the body starts
/// with `if (C) goto loc_E;`), with jumps to the header becoming `continue` and to the exit `break`.
pub(crate) fn recover_goto_loops(lines: &mut Vec<PseudoLine>) {
    let goto_target = |l: &PseudoLine| -> Option<String> {
        let g = l.tokens.iter().position(|t| t.k == TokenKind::Keyword && t.t == "goto")?;
        l.tokens[g + 1..].iter().find(|t| t.k == TokenKind::Symbol).map(|t| t.t.clone())
    };
    let mut h = 0;
    while h + 2 < lines.len() {
        if !is_label(&lines[h]) {
            h += 1;
            continue;
        }
        let head = lines[h].tokens[0].t.clone();
        let d = lines[h].indent + 1;
        // The back edge: the last `goto head;` at depth d inside the same block.
        let mut back = None;
        for (j, l) in lines.iter().enumerate().skip(h + 1) {
            if l.indent < d - 1 || (l.indent == d - 1 && !is_label(l)) {
                break;
            }
            if l.indent == d && text(&l.tokens) == format!("goto {head};") {
                back = Some(j);
            }
        }
        let Some(b) = back.filter(|&b| b > h + 1) else {
            h += 1;
            continue;
        };
        // Nothing outside may jump into the body (the header itself is fine from before it only via fallthrough).
        let inner_labels: Vec<String> = lines[h + 1..b].iter().filter(|l| is_label(l)).map(|l| l.tokens[0].t.clone()).collect();
        let enters = lines
            .iter()
            .enumerate()
            .any(|(j, l)| (j < h || j > b) && goto_target(l).is_some_and(|t| t == head || inner_labels.contains(&t)));
        if enters {
            h += 1;
            continue;
        }
        let exit = lines.get(b + 1).filter(|l| is_label(l)).map(|l| l.tokens[0].t.clone());
        lines[b] = PseudoLine { address: lines[b].address, indent: d, tokens: vec![tok("}", TokenKind::Punct)] };
        for l in &mut lines[h + 1..b] {
            if let Some(t) = goto_target(l) {
                let jump = if t == head {
                    Some("continue")
                } else if Some(&t) == exit.as_ref() {
                    Some("break")
                } else {
                    None
                };
                if let Some(kw) = jump {
                    if let Some(g) = l.tokens.iter().position(|x| x.k == TokenKind::Keyword && x.t == "goto") {
                        l.tokens.truncate(g);
                        l.tokens.push(tok(kw, TokenKind::Keyword));
                        l.tokens.push(tok(";", TokenKind::Punct));
                    }
                }
            }
            l.indent += 1;
        }
        // `while (1) {` replaces the header label; a leading `if (C) break;` becomes the loop test.
        let first = &lines[h + 1];
        let leading_test = first.indent == d + 1
            && first.tokens.first().is_some_and(|t| t.k == TokenKind::Keyword && t.t == "if")
            && text(&first.tokens).ends_with(") break;");
        let cond = if leading_test {
            let l = &lines[h + 1];
            let g = l.tokens.iter().position(|t| t.k == TokenKind::Keyword && t.t == "break");
            g.and_then(|g| {
                let mut c: Vec<Token> = l.tokens[1..g].to_vec();
                let f = c.first_mut()?;
                f.t = f.t.strip_prefix(" (")?.to_string();
                let last = c.last_mut()?;
                last.t = last.t.strip_suffix(") ")?.to_string();
                c.retain(|t| !t.t.is_empty());
                Some(negate_cond(&c))
            })
        } else {
            None
        };
        let mut whl = vec![tok("while", TokenKind::Keyword), tok(" (", TokenKind::Punct)];
        match &cond {
            Some(c) => whl.extend(c.iter().cloned()),
            None => whl.push(tok("1", TokenKind::Number)),
        }
        whl.push(tok(") {", TokenKind::Punct));
        let addr = lines[h].address;
        let header = PseudoLine { address: addr, indent: d, tokens: crate::pseudo_opt::merge(whl) };
        let still_used = lines.iter().any(|l| goto_target(l).is_some_and(|t| t == head));
        if cond.is_some() {
            lines.remove(h + 1);
        }
        if still_used {
            lines.insert(h + 1, header);
            h += 1;
        } else {
            lines[h] = header;
        }
        to_for(lines, h);
        h += 1;
    }
}

/// `x = init; while (C) { …; x++; }` → `for (x = init; C; x++) { … }`. The initialisation may sit
/// a few plain assignments above the loop as long as they leave `x` alone.
fn to_for(lines: &mut Vec<PseudoLine>, w: usize) {
    if w == 0 {
        return;
    }
    let ind = lines[w].indent;
    let Some(c) = condition(&lines[w], "while") else { return };
    let Some(end) = (w + 1..lines.len()).find(|&j| lines[j].indent <= ind && !is_label(&lines[j])) else { return };
    if end < w + 2 || lines[end].indent != ind || text(&lines[end].tokens) != "}" {
        return;
    }
    let fam = |s: &str| family(s).map(|f| f.0);
    // The step: last body statement, `x++`, `x--`, `x += n` or `x -= n`.
    let step = &lines[end - 1];
    let Some(v) = step.tokens.first().filter(|t| t.k == TokenKind::Register).and_then(|t| fam(&t.t)) else { return };
    let rest = text(&step.tokens[1..]);
    let step_ok = step.indent == ind + 1 && (rest == "++;" || rest == "--;" || rest.starts_with(" += ") || rest.starts_with(" -= "));
    let mentions = |l: &PseudoLine| l.tokens.iter().any(|t| t.k == TokenKind::Register && fam(&t.t).as_ref() == Some(&v));
    let in_cond = c.iter().any(|t| t.k == TokenKind::Register && fam(&t.t).as_ref() == Some(&v));
    // `continue` inside the body would skip the step in a `for`.
    let has_continue = lines[w + 1..end].iter().any(|l| has_kw(l, "continue"));
    if !step_ok || !in_cond || has_continue {
        return;
    }
    let mut init_at = None;
    for k in (w.saturating_sub(4)..w).rev() {
        let l = &lines[k];
        let Some((lhs, expr)) = assignment(l) else { break };
        if l.indent != ind {
            break;
        }
        if lhs.k == TokenKind::Register && fam(&lhs.t).as_ref() == Some(&v) {
            if !expr.iter().any(|t| t.k == TokenKind::Register && fam(&t.t).as_ref() == Some(&v)) {
                init_at = Some(k);
            }
            break;
        }
        if mentions(l) || call_at(l).is_some() {
            break;
        }
    }
    let Some(k) = init_at else { return };
    let mut init_toks = lines[k].tokens.clone();
    init_toks.last_mut().unwrap().t.pop();
    let mut step_toks = step.tokens.clone();
    step_toks.last_mut().unwrap().t.pop();
    let mut head = vec![tok("for", TokenKind::Keyword), tok(" (", TokenKind::Punct)];
    head.extend(init_toks);
    head.push(tok("; ", TokenKind::Punct));
    head.extend(c);
    head.push(tok("; ", TokenKind::Punct));
    head.extend(step_toks);
    head.push(tok(") {", TokenKind::Punct));
    let addr = lines[w].address;
    lines.remove(end - 1);
    lines[w] = PseudoLine { address: addr, indent: ind, tokens: crate::pseudo_opt::merge(head) };
    lines.remove(k);
}

/// Top-level overwrites of each register that start a new, independent variable:
/// no jump crosses the line in either direction, so no path sees both values.
fn split_points(lines: &[PseudoLine]) -> HashMap<String, Vec<usize>> {
    let labels: HashMap<&str, usize> =
        lines.iter().enumerate().filter(|(_, l)| is_label(l)).map(|(i, l)| (l.tokens[0].t.as_str(), i)).collect();
    let mut jumps: Vec<(usize, usize)> = Vec::new();
    for (i, l) in lines.iter().enumerate() {
        for (k, t) in l.tokens.iter().enumerate() {
            if t.k == TokenKind::Keyword && t.t == "goto" {
                if let Some(&to) = l.tokens[k + 1..].iter().find(|t| t.k == TokenKind::Symbol).and_then(|t| labels.get(t.t.as_str())) {
                    jumps.push((i, to));
                }
            }
        }
    }
    let crosses = |k: usize| jumps.iter().any(|&(a, b)| (a < k && b >= k) || (a >= k && b < k));
    let mut out: HashMap<String, Vec<usize>> = HashMap::new();
    for (k, l) in lines.iter().enumerate().skip(1) {
        if l.indent != 1 {
            continue;
        }
        let Some((lhs, expr)) = assignment(l) else { continue };
        let Some((f, w)) = family(&lhs.t) else { continue };
        if w < 32 || f.starts_with("var_") || expr.iter().any(|t| t.k == TokenKind::Register && family(&t.t).is_some_and(|x| x.0 == f)) {
            continue;
        }
        if !crosses(k) {
            out.entry(f).or_default().push(k);
        }
    }
    out
}

/// How register occurrences are grouped into variables.
pub(crate) enum Seg {
    /// Reaching definitions over the structured code (`pseudo_ssa`).
    Webs(crate::pseudo_ssa::Webs),
    /// Top-level overwrites with no jump across them (used when the structure cannot be read).
    Old(HashMap<String, Vec<usize>>),
}

impl Seg {
    pub(crate) fn new(lines: &[PseudoLine], webs: bool) -> Seg {
        if webs {
            if let Some(w) = crate::pseudo_ssa::recover(lines) {
                return Seg::Webs(w);
            }
        }
        Seg::Old(split_points(lines))
    }

    /// Variable key of the register `f` at token `tok` of `line`: family + segment.
    pub(crate) fn key(&self, f: &str, line: usize, tok: usize) -> String {
        match self {
            Seg::Webs(w) => w.key(f, line, tok),
            Seg::Old(splits) => {
                let seg = splits.get(f).map(|v| v.iter().filter(|&&k| k <= line).count()).unwrap_or(0);
                format!("{f}#{seg}")
            }
        }
    }

    /// Whether this occurrence is the plain overwrite that starts a fresh value.
    pub(crate) fn starts(&self, f: &str, line: usize, tok: usize) -> bool {
        match self {
            Seg::Webs(w) => tok == 0 && w.is_def(f, line),
            Seg::Old(splits) => splits.get(f).is_some_and(|v| v.contains(&line)),
        }
    }
}

//! The JSON reader takes document 01's shape and nothing else; the writer's text is read back.

use oracle::json::{read, write};
use oracle::model::TokenKind;
use oracle::notation::{line, listing};
use oracle::pseudo::PseudoLine;

const SHAPE: &str = r#"[{"address":null,"indent":1,"tokens":[{"t":"}","k":"punct"}]}]"#;

/// The text of the only token of a listing whose `t` is written as given.
fn token(t: &str) -> Option<String> {
    let json = SHAPE.replace(r#""t":"}""#, &format!(r#""t":"{t}""#));
    read(json.as_bytes()).ok().map(|lines| lines[0].tokens[0].t.clone())
}

#[test]
fn the_shape_is_read_and_written() {
    let lines = read(SHAPE.as_bytes()).unwrap();
    assert_eq!(lines, [line(1, "}")]);
    assert_eq!(write(&lines), SHAPE.as_bytes());
    assert_eq!(read(b"[]"), Ok(vec![]));
    assert_eq!(write(&[]), b"[]");
}

#[test]
fn white_space_is_allowed_between_tokens() {
    let spaced = r#"[ { "address" : null , "indent" : 1 , "tokens" : [ { "t" : "}" , "k" : "punct" } ] } ]"#.replace(' ', " \t\r\n");
    assert_eq!(read(format!("\n{spaced}\n").as_bytes()), read(SHAPE.as_bytes()));
    assert_eq!(read(b" [ ] "), Ok(vec![]));
    assert!(read(SHAPE.replace("null", "null\u{b}").as_bytes()).is_err());
    assert!(read(SHAPE.replace("null", "nu ll").as_bytes()).is_err());
}

#[test]
fn other_shapes_are_refused() {
    for (from, to) in [
        ("\"address\":null,\"indent\":1", "\"indent\":1,\"address\":null"),
        ("\"indent\"", "\"Indent\""),
        ("\"indent\"", "\"\\u0069ndent\""),
        ("punct", "Punct"),
        ("punct", "p\\u0075nct"),
        ("punct", "puncts"),
        (",\"k\":\"punct\"", ""),
        ("\"punct\"", "\"punct\",\"x\":1"),
        ("null", "\"1\""),
        ("}]}]", "}]},]"),
        ("}]}]", "},]}]"),
        ("}]}]", "}]}"),
        ("}]}]", "}]}]]"),
        ("}]}]", "}]}] 0"),
        ("[{\"address", "[,{\"address"),
        ("[{\"address", "\u{feff}[{\"address"),
    ] {
        assert!(read(SHAPE.replacen(from, to, 1).as_bytes()).is_err(), "{from} -> {to}");
    }
    assert!(read(b"").is_err());
    assert!(read(b"{}").is_err());
}

#[test]
fn every_cut_is_refused() {
    assert!((0..SHAPE.len()).all(|n| read(&SHAPE.as_bytes()[..n]).is_err()));
}

#[test]
fn numbers_are_whole_and_bounded() {
    let address = |n: &str| read(SHAPE.replace("null", n).as_bytes()).ok().map(|l| l[0].address);
    assert_eq!(address("0"), Some(Some(0)));
    assert_eq!(address("18446744073709551615"), Some(Some(u64::MAX)));
    for n in ["18446744073709551616", "99999999999999999999999", "-0", "-1", "+1", "01", "00", "1.0", "1e0", "1E0", "0x1", "", "Null"] {
        assert_eq!(address(n), None, "{n}");
    }
    let indent = |n: &str| read(SHAPE.replace(":1", &format!(":{n}")).as_bytes()).ok().map(|l| l[0].indent);
    assert_eq!(indent("255"), Some(255));
    assert!(["256", "-1", "null", "1.5", "01"].iter().all(|n| indent(n).is_none()));
}

#[test]
fn escapes_stand_in_text_only() {
    assert_eq!(token(r#"\"\\\/\b\f\n\r\t"#).unwrap(), "\"\\/\u{8}\u{c}\n\r\t");
    assert_eq!(token(r"\u0041\u00e9\u20AC\uD83D\uDE00\u0000").unwrap(), "Aé€😀\0");
    assert_eq!(token("é€😀\u{7f}").unwrap(), "é€😀\u{7f}");
    let lone = [r"\ud83d", r"\udE00", r"\ud83d\ud83d", r"\ud83dx", r"\ud83d\n"];
    let malformed = [r"\x41", r"\u12", r"\u12g4", r"\U0041", "\\", "\n", "\0", "\u{1f}"];
    for t in lone.iter().chain(&malformed) {
        assert_eq!(token(t), None, "{t:?}");
    }
}

#[test]
fn text_must_be_utf_8() {
    for bytes in [&b"\xff"[..], b"\xc0\x80", b"\xed\xa0\x80", b"\xf4\x90\x80\x80", b"\xe2\x82", b"\x80"] {
        let (before, after) = SHAPE.split_once("}\",").unwrap();
        let json = [before.as_bytes(), bytes, b"\",", after.as_bytes()].concat();
        assert!(read(&json).is_err(), "{bytes:?}");
    }
}

#[test]
fn limits_are_question_1s() {
    let lines = |n: usize| write(&vec![line(0, ""); n]);
    assert!(read(&lines(1_024)).is_ok());
    assert!(read(&lines(1_025)).is_err());
    let tokens = |n: usize| write(&[PseudoLine { tokens: vec![line(0, "a").tokens[0].clone(); n], ..line(0, "") }]);
    assert!(read(&tokens(16_384)).is_ok());
    assert!(read(&tokens(16_385)).is_err());
    assert!(token(&"é".repeat(131_072)).is_some());
    assert!(token(&"a".repeat(262_145)).is_none());
}

#[test]
fn the_writer_escapes_quote_backslash_and_control_codes() {
    let text = "[t|\"\\/\u{0}\u{a}\u{1f}\u{7f}é😀]";
    let written = String::from_utf8(write(&[line(0, text)])).unwrap();
    assert!(written.contains("\\\"\\\\/\\u0000\\u000a\\u001f\u{7f}é😀"), "{written}");
}

#[test]
fn what_is_written_is_read_back() {
    let mut lines = listing("0 int f()\n0 {\n1 [x|a\u{0}\"\\][a|é😀][n|][t|\u{1}]\n255 return rax;\n0 }");
    lines[0].address = Some(u64::MAX);
    lines[3].tokens.push(oracle::model::Token { t: String::new(), k: TokenKind::Prefix });
    assert_eq!(read(&write(&lines)).as_ref(), Ok(&lines));
}

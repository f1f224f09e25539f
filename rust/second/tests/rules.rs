//! The examples of the rules, held against the second program.

use second::print::print;
use second::read::{read, tables};
use second::token::{next_token, Token};
use second::Refusal;

fn refused(text: &[u8], number: u64, place: u64) {
    let wanted = Err(Refusal { number, place });
    let shown = String::from_utf8_lossy(text).chars().take(60).collect::<String>();
    assert_eq!(tables(text, true), wanted, "{shown}");
    assert_eq!(tables(text, false), wanted, "{shown}");
}

fn prints(text: &str, wanted: &str) {
    let made = tables(text.as_bytes(), true).expect(text);
    let mut out = vec![0; 65_536];
    let length = print(&made.nodes, &made.rules, &made.store, &mut out).expect(text);
    assert_eq!(std::str::from_utf8(&out[..length]), Ok(wanted));
}

fn spans(text: &str, tagged: bool, wanted: &[(u32, u32)]) {
    let made = tables(text.as_bytes(), tagged).expect(text);
    let found: Vec<_> = made.nodes.chunks(7).map(|node| (node[1], node[2])).collect();
    assert_eq!(found, wanted, "{text}");
}

fn lists(text: &[u8], at: usize, kind: u8, start: u32, end: u32) {
    assert_eq!(next_token(text, at), Ok(Some(Token { kind, start, end })), "{text:?}");
}

fn no_token(text: &[u8], at: usize, place: u64) {
    assert_eq!(next_token(text, at), Err(Refusal { number: 3, place }), "{text:?}");
}

#[test]
fn the_twelve() {
    prints("r={a ~ b ~ c}", "r = { ((a ~ b) ~ c) }\n");
    prints("r={a ~ (b ~ c)}", "r = { (a ~ b ~ c) }\n");
    prints("r={!a*}", "r = { !a* }\n");
    prints("r={(!a)*}", "r = { (!a)* }\n");
    refused(b"r = { a{0} }", 6, 8);
    refused(b"r = { a{,0} }", 6, 9);
    prints("r={a{0,} ~ a{3,2}}", "r = { (a{0,} ~ a{3, 2}) }\n");
    prints("r={a{4294967295}}", "r = { a{4294967295} }\n");
    refused(b"r={a{4294967296}}", 5, 5);
    prints(r#"r={"\x80"}"#, "r = { \"\\u{80}\" }\n");
    assert_eq!(tables(br#"r={"\x80"}"#, true).unwrap().store, b"r\xc2\x80");
    refused(br#"r={"\u{1}"}"#, 3, 4);
    prints(r#"r={"\x01"}"#, "r = { \"\\u{01}\" }\n");
    refused(br#"r={"\u{d800}"}"#, 8, 4);
    let made = tables(b"r = { (a)* }", true).unwrap();
    assert_eq!(made.nodes, [4, 7, 9, 1, 1, 0, 1, 11, 6, 10, 0, 0, 0, 1]);
    assert_eq!(made.rules, [0, 1, 0, 1, 0, 1]);
    assert_eq!(made.store, b"ra");
    let made = tables(b"r={#t = a}", false).unwrap();
    assert_eq!((made.nodes[0], made.nodes.len(), &made.store[..]), (4, 7, &b"ra"[..]));
    prints("r={a ~ ((b ~ c) ~ d)}", "r = { (a ~ (b ~ c) ~ d) }\n");
    prints("a = { b ~ c | \"x\"* }", "a = { ((b ~ c) | \"x\"*) }\n");
}

#[test]
fn tokens() {
    no_token(b"a = { PUSHx }", 5, 6);
    no_token(b"PUSH_", 0, 0);
    no_token(b"PUSH_LITERALx", 0, 0);
    lists(b"_PUSH", 0, 18, 0, 5);
    lists(b"pUSH", 0, 18, 0, 4);
    lists(b"#PUSHx = b", 0, 19, 0, 6);
    no_token(br#""\X41""#, 0, 1);
    no_token(b"a\r=", 1, 1);
    no_token(b"\r\r\n", 0, 0);
    lists(b"///x\r\n", 0, 27, 0, 4);
    lists(b"///x\r", 0, 27, 0, 5);
    lists(b"///x\r\r\n", 0, 27, 0, 5);
    lists(b"////", 0, 27, 0, 4);
    lists(b"//!/", 0, 26, 0, 4);
    no_token(b"/**/ /* /* */", 0, 5);
    no_token(b"/*/", 0, 0);
    no_token(b"/*/*/", 0, 0);
    assert_eq!(next_token(b"/***/", 0), Ok(None));
    no_token(b"-0", 0, 0);
    no_token(b"-00", 0, 0);
    lists(b"-01", 0, 21, 0, 3);
    lists(b"1a", 0, 20, 0, 1);
    no_token(b"''", 0, 0);
    lists(b"''''", 0, 25, 0, 3);
    no_token(b"''''", 3, 3);
    no_token(b"'\\'", 0, 0);
    no_token(b"'\r\n'", 0, 0);
    no_token(b"a ^\"b", 1, 2);
    no_token(b"\x0b", 0, 0);
    no_token("\u{a0}".as_bytes(), 0, 0);
    no_token("\u{feff}".as_bytes(), 0, 0);
    lists(b"\"ab\" %", 1, 18, 1, 3);
    no_token("\"é\"".as_bytes(), 2, 2);
    assert_eq!(next_token(b"a ", 1), Ok(None));
    assert_eq!(next_token(b"a", 99), Ok(None));
    assert_eq!(next_token(b"a\xff", 99), Err(Refusal { number: 2, place: 1 }));
    lists(b"a %", 0, 18, 0, 1);
    for (i, byte) in b"={}[]()&!~|?*+,@$".iter().enumerate() {
        lists(&[*byte], 0, i as u8 + 1, 0, 1);
    }
}

#[test]
fn structure() {
    assert_eq!(tables(b"/// x", true), Ok(Default::default()));
    refused(b"", 4, 0);
    refused(b"//! x", 4, 5);
    refused(b"a = { /// x\n b }", 4, 6);
    refused(b"/// x\n//! y", 4, 6);
    refused(b"a={b}//! y", 4, 5);
    refused(b"a = __{ b }", 4, 4);
    assert!(tables(b"_ = _{ _ }", true).is_ok());
    assert!(tables(b"PEEK = { PEEK }", true).is_ok());
    refused(b"a = { || a }", 4, 7);
    refused(b"a = { (| a) }", 4, 7);
    refused(b"a = { PUSH(| a) }", 4, 11);
    refused(b"a = { b   ", 4, 10);
    refused(b"a = { PUSH }", 4, 11);
    refused(b"PUSH = { a }", 4, 0);
    refused(b"PUSH_LITERAL = { a }", 4, 0);
    refused(b"a={PEEK[1]}", 4, 9);
    refused(b"a={b[1..]}", 4, 4);
    refused(b"a = } \"", 3, 6);
    refused(b"a={b{}}", 4, 5);
    refused(b"a={b{,}}", 4, 6);
    refused(b"a={b{1 2}}", 4, 7);
    refused(b"a={b{1,2,}}", 4, 8);
    refused(b"a = { b{-1} }", 4, 8);
    refused(b"a = { b{-0} }", 3, 8);
    refused(b"a={#t = #u = b}", 4, 8);
    refused(b"a={!#t = b}", 4, 4);
    assert!(tables(b"a={b}c={d}", true).is_ok());
    let deep = |n: usize| format!("a={{{}b{}}}", "(".repeat(n), ")".repeat(n));
    assert!(tables(deep(1_024).as_bytes(), true).is_ok());
    refused(deep(1_025).as_bytes(), 9, 3 + 1_024);
    let push = format!("a={{{}PUSH_LITERAL(\"x\"){}}}", "(".repeat(1_024), ")".repeat(1_024));
    refused(push.as_bytes(), 9, 3 + 1_024 + 12);
}

#[test]
fn values() {
    refused(b"a={b{00}}", 6, 5);
    let zeros = format!("a={{b{{{}1}}}}", "0".repeat(60_000));
    assert_eq!(tables(zeros.as_bytes(), true).unwrap().nodes[11], 1);
    refused(format!("a={{b{{{}}}}}", "9".repeat(60_000)).as_bytes(), 5, 5);
    refused(b"a={b{4294967296, 0}}", 5, 5);
    refused(b"a={b{0, 0}}", 6, 8);
    refused(b"a={b{0, 4294967296}}", 5, 8);
    assert!(tables(b"a={PEEK[-2147483648..2147483647]}", true).is_ok());
    refused(b"a={PEEK[-2147483649..]}", 7, 8);
    refused(b"a={PEEK[..2147483648]}", 7, 10);
    assert!(tables(br#"a={"\\u{d800}"}"#, true).is_ok());
    let literal = br#"a={PUSH_LITERAL("\u{d800}")}"#;
    assert_eq!(tables(literal, false), Err(Refusal { number: 13, place: 3 }));
    assert_eq!(tables(literal, true), Err(Refusal { number: 8, place: 17 }));
    refused(br"a={'a'..'\u{110000}'}", 8, 9);
}

#[test]
fn trees() {
    assert_eq!(tables(b"r={\"\"~r}", true).unwrap().nodes[3], 1);
    assert_eq!(tables(b"r={#t=a}", true).unwrap().store, b"rta");
    spans("r={(a)*?}", true, &[(4, 6), (4, 7), (3, 8)]);
    spans("r={(a)}", true, &[(3, 6)]);
    spans("r={((a)*)?}", true, &[(5, 7), (4, 9), (3, 10)]);
    spans("r={PUSH( a ) *}", true, &[(9, 10), (3, 10), (3, 14)]);
    spans("r={PUSH_LITERAL( \"x\" )+}", true, &[(17, 20), (17, 23)]);
    spans("r={!PUSH_LITERAL(\"x\")}", true, &[(17, 20), (3, 20)]);
    spans("r={#t = a~b}", false, &[(8, 9), (10, 11), (8, 11)]);
    spans("r={(#t = a)}", false, &[(3, 11)]);
}

#[test]
fn limits() {
    refused(&[b' '; 65_537], 1, 0);
    refused(b"a\xed\xa0\x80", 2, 1);
    let (mut nodes, mut rules, mut store) = ([7; 13], [7; 11], [7; 8]);
    let mut room = |text: &[u8], n: usize, r: usize, s: usize| {
        read(text, true, &mut nodes[..n], &mut rules[..r], &mut store[..s]).map_err(|e| e.number)
    };
    assert_eq!(room(b"a={b}", 6, 5, 1), Err(12));
    assert_eq!(room(b"a={b}", 6, 6, 1), Err(10));
    assert_eq!(room(b"a={b}", 7, 6, 1), Err(11));
    assert_eq!(room(b"a={b}", 13, 11, 1), Err(11));
    assert!(room(b"a={b}", 13, 11, 2).is_ok());
    assert!(room(b"a={b}", 7, 6, 2).is_ok());
    assert_eq!(room(b"a={b*}", 13, 11, 2), Err(10));
    assert_eq!(room(b"a={b}a={b}", 13, 11, 8), Err(12));
    assert_eq!(room(b"a={b!}", 0, 0, 0), Err(4));
    for (text, nodes) in [("!".repeat(60_000), 60_001), ("a~".repeat(30_000), 60_001)] {
        let made = tables(format!("a={{{text}b}}").as_bytes(), true).unwrap();
        assert_eq!(made.nodes.len() / 7, nodes);
    }
    let nested = format!("{}{}a={{b}}", "/*".repeat(16_000), "*/".repeat(16_000));
    assert!(tables(nested.as_bytes(), true).is_ok());
}

#[test]
fn printer() {
    let refusal = |nodes: &[u32], rules: &[u32], store: &[u8]| {
        let mut out = [0; 64];
        print(nodes, rules, store, &mut out).map_err(|e| (e.number, e.place))
    };
    let ab = [4, 0, 0, 0, 1, 0, 0, 4, 0, 0, 1, 1, 0, 9, 8, 0, 0, 0, 1, 0, u32::MAX];
    assert_eq!(refusal(&[], &[], b""), Ok(0));
    assert_eq!(refusal(&ab, &[], b"ab"), Err((22, 0)));
    assert_eq!(refusal(&ab, &[0, 1, 0, 0, 0, 0, 0, 1, 0, 1, 0, 0], b"ab"), Err((22, 2)));
    assert_eq!(refusal(&ab, &[0, 1, 0, 0, 0, 0, 0, 1, 0, 2, 0, 0], b"ab"), Err((22, 1)));
    assert_eq!(refusal(&ab, &[0, 1, 0, 2, 0, 0], b"ab"), Ok(16));
    assert_eq!(refusal(&[1, 0, 0, 2, 0, 0, 0], &[0, 1, 0, 0, 0, 0], b"ab"), Ok(11));
    assert_eq!(refusal(&[1, 0, 0, 3, 0, 0, 0], &[0, 1, 0, 0, 0, 0], b"ab"), Err((21, 0)));
    assert_eq!(refusal(&[1, 0, 0, 4294967295, 1, 0, 0], &[0, 1, 0, 0, 0, 0], b"ab"), Err((21, 0)));
    // Whole records of seven for nodes, of six for rules.
    assert_eq!(refusal(&ab[..18], &[], b"ab"), Err((20, 0)));
    assert_eq!(refusal(&ab[..20], &[], b"ab"), Err((20, 0)));
    assert_eq!(refusal(&ab, &[0, 1, 0, 2, 0, 0, 0], b"ab"), Err((20, 0)));
    assert_eq!(refusal(&[4, 0, 0, 0, 1, 0].repeat(2), &[0, 1, 0, 0, 0, 0], b"a"), Err((20, 0)));
    // Six records of seven, which were seven of six.
    assert_eq!(refusal(&[4, 0, 0, 0, 1, 0].repeat(7), &[0, 1, 0, 0, 0, 0], b"a"), Err((21, 1)));
    let long = [1, 0, 0, 0, 65_536, 0, 0].repeat(4_096);
    assert_eq!(refusal(&long, &[0; 6], &[b'a'; 65_536]), Err((22, 0)));
}

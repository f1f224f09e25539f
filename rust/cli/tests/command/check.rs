use std::fs;

use crate::{out, ran, Folder};

/// What `check` says of one text.
fn told(text: impl AsRef<[u8]>) -> String {
    told_with("check t", text)
}

fn told_with(args: &str, text: impl AsRef<[u8]>) -> String {
    let ran = Folder::new().with("t", text).run(args);
    assert_eq!((ran.status, ran.err), (1, String::new()));
    ran.out
}

#[test]
fn good_texts_are_passed_over_in_silence() {
    let folder = Folder::of(&[
        ("a", "a = { b }"),
        ("docs", "/// nothing else"),
        ("tagged", "a = { #t = PUSH_LITERAL(\"x\") }"),
    ]);
    assert_eq!(folder.run("check a docs tagged"), out(0, ""));
    assert_eq!(folder.run("check --plain a docs"), out(0, ""));
}

#[test]
fn the_example_layouts_are_good() {
    let layouts = fs::read_dir("../../layouts").expect("the layouts are there");
    let paths = layouts.map(|entry| entry.expect("an entry").path());
    // camera lines stand beside them
    let paths: Vec<_> = paths.filter(|path| path.extension() == Some("pest".as_ref())).collect();
    assert!(!paths.is_empty());
    let folder = Folder::new();
    for path in paths {
        let path = path.canonicalize().expect("a path");
        assert_eq!(ran(&mut folder.command(["check".as_ref(), path.as_os_str()])), out(0, ""));
    }
}

#[test]
fn refusal_1() {
    let told = told(vec![b'a'; 65537]);
    assert_eq!(told, "t:1:1: refused 1: the text has over 65,536 bytes\n");
    let largest = format!("{}a={{b}}", " ".repeat(65531));
    assert_eq!(Folder::new().with("t", largest).run("check t"), out(0, ""));
}

#[test]
fn an_endless_file_is_not_read_to_its_end() {
    let told = Folder::new().run("check /dev/zero");
    assert_eq!(told, out(1, "/dev/zero:1:1: refused 1: the text has over 65,536 bytes\n"));
}

#[test]
fn refusal_2() {
    let said = "\
t:2:8: refused 2: the text is not UTF-8
  |
2 | b = { \"�\" }
  |        ^
";
    assert_eq!(told(b"a = { b }\nb = { \"\xff\" }\n"), said);
}

#[test]
fn refusal_3() {
    let said = "\
t:1:9: refused 3: no token or escape can be made of what stands here
  |
1 | a = { b % }
  |         ^
";
    assert_eq!(told("a = { b % }"), said);
}

#[test]
fn refusal_3_in_a_long_string() {
    let said = "\
t:41:5: refused 3: no token or escape can be made of what stands here
   |
41 | end \\d\" }
   |     ^
";
    assert_eq!(told(format!("a = {{ \"{}end \\d\" }}", "mm;\n".repeat(40))), said);
}

#[test]
fn refusal_4() {
    let said = "\
t:2:11: refused 4: this token isn't allowed here
  |
2 | c = { d ~ }
  |           ^
";
    assert_eq!(told("a = { b }\nc = { d ~ }\n"), said);
}

#[test]
fn refusal_4_at_the_end() {
    assert_eq!(told(""), "t:1:1: refused 4: the text ends too early\n  |\n1 |\n  | ^\n");
    assert_eq!(
        told("a = {"),
        "t:1:6: refused 4: the text ends too early\n  |\n1 | a = {\n  |      ^\n"
    );
    assert_eq!(told("a = {\r\n"), "t:2:1: refused 4: the text ends too early\n  |\n2 |\n  | ^\n");
}

#[test]
fn refusals_5_to_8() {
    let said = "\
t:1:9: refused 5: a repeat number over 4,294,967,295
  |
1 | a = { b{4294967296} }
  |         ^
";
    assert_eq!(told("a = { b{4294967296} }"), said);
    let said = "\
t:1:9: refused 6: a repeat of exactly 0, or of at most 0
  |
1 | a = { b{0} }
  |         ^
";
    assert_eq!(told("a = { b{0} }"), said);
    let said = "\
t:1:15: refused 7: a PEEK number that 32 signed bits can't hold
  |
1 | a = { PEEK[0..2147483648] }
  |               ^
";
    assert_eq!(told("a = { PEEK[0..2147483648] }"), said);
    let said = "\
t:1:8: refused 8: an escape of a surrogate, or above U+10FFFF
  |
1 | a = { \"\\u{d800}\" }
  |        ^
";
    assert_eq!(told("a = { \"\\u{d800}\" }"), said);
}

#[test]
fn refusal_9_and_a_line_that_is_cut() {
    let text = format!("a = {{ {}b{} }}", "(".repeat(1025), ")".repeat(1025));
    let head = "t:1:1031: refused 9: a ( that would make 1,025 open at once\n";
    let line = format!("…{}b{}…", "(".repeat(51), ")".repeat(48));
    assert_eq!(told(text), format!("{head}  |\n1 | {line}\n  | {}^\n", " ".repeat(51)));
}

#[test]
fn refusals_10_and_12_blame_no_line() {
    let text = format!("a = {{ {}b }}", "!".repeat(4096));
    assert_eq!(told(text), "t:1:1: refused 10: more than 4,096 nodes\n");
    assert_eq!(told("a={b}".repeat(1025)), "t:1:1: refused 12: more than 1,024 rules\n");
}

// 11 is given to programs alone that lend too little room; `flascjuvan explain 11` runs one

#[test]
fn refusal_13_is_for_plain_reading() {
    let text = "a = { PUSH_LITERAL(\"x\") }";
    let head = "t:1:7: refused 13: PUSH_LITERAL, which plain reading has not\n";
    assert_eq!(told_with("check --plain t", text), format!("{head}  |\n1 | {text}\n  |       ^\n"));
}

#[test]
fn columns_count_characters_and_tabs_stay() {
    let said = "\
t:1:12: refused 3: no token or escape can be made of what stands here
  |
1 | \ta = { \"糖Ö\"%
  | \t          ^
";
    assert_eq!(told("\ta = { \"糖Ö\"%"), said);
}

#[test]
fn a_hostile_text_steers_nothing() {
    let said = "\
t:1:17: refused 2: the text is not UTF-8
  |
1 | a = ␛[2J␛]0;x␇{ � � }
  |                 ^
";
    assert_eq!(told(b"a = \x1b[2J\x1b]0;x\x07{ \x9b \xe2\x80\xae }\r\n"), said);
}

#[test]
fn a_hostile_name_steers_nothing() {
    let folder = Folder::new().with("\x1b[31m\n", "a = {");
    let ran = ran(&mut folder.command(["check", "\x1b[31m\n", "\x1b[32m"]));
    assert_eq!(
        ran.out,
        "␛[31m␊:1:6: refused 4: the text ends too early\n  |\n1 | a = {\n  |      ^\n"
    );
    assert_eq!((ran.status, &ran.err[..]), (2, "flascjuvan: ␛[32m: there is no such file\n"));
}

#[test]
fn standard_input() {
    let folder = Folder::new();
    assert_eq!(folder.feed("check -", "a = { b }"), out(0, ""));
    let said = "\
<stdin>:1:7: refused 4: this token isn't allowed here
  |
1 | a = { }
  |       ^
";
    assert_eq!(folder.feed("check -", "a = { }"), out(1, said));
}

#[test]
fn every_file_is_looked_at() {
    let folder = Folder::of(&[("a", "a = {"), ("b", "a = { b }"), ("c", "%")]);
    let said = "\
a:1:6: refused 4: the text ends too early
  |
1 | a = {
  |      ^
c:1:1: refused 3: no token or escape can be made of what stands here
  |
1 | %
  | ^
";
    assert_eq!(folder.run("check a b c"), out(1, said));
}

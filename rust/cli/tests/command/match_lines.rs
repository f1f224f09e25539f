use std::fs::File;
use std::io::{Read, Write};
use std::process::Stdio;

use crate::{err, out, ran, Folder};

/// A field up to the next semicolon, and what is often written for it.
const FIELDS: &str = "field = { (!\";\" ~ ANY)* }\nslip = { !\";\" ~ ANY* }\n";

#[test]
fn the_students_mistake() {
    let folder = Folder::of(&[("t", FIELDS), ("lines", "a;b\n")]);
    let said = "   \
   1 | a;b
     | ^ 1 of 3 bytes, 8 steps
1 line: 0 matched whole, 1 in part, 0 not at all, 0 refused
";
    assert_eq!(folder.run("match t field lines"), out(0, said));
    let said = "   \
   1 | a;b
     | ^^^ 3 of 3 bytes, 8 steps
1 line: 1 matched whole, 0 in part, 0 not at all, 0 refused
";
    assert_eq!(folder.run("match t slip lines"), out(0, said));
}

#[test]
fn every_way_a_line_can_go() {
    let folder = Folder::of(&[("t", "size = { digit+ ~ \"µm\"? } digit = { '0'..'9' }")]).with(
        "lines",
        b"12\xc2\xb5m\r\n\n34 wide\n5\xc2\xb5\n\x1b[2J\n7\xff\xff\n1234567890123456",
    );
    let said = "   \
   1 | 12µm
     | ^^^^ 5 of 5 bytes, 10 steps
   2 |
     | no match, 4 steps
   3 | 34 wide
     | ^^ 2 of 7 bytes, 10 steps
   4 | 5µ
     | ^ 1 of 3 bytes, 8 steps
   5 | ␛[2J
     | no match, 4 steps
   6 | 7��
     |  ^ refused 33: the line is not UTF-8
   7 | 1234567890123456
     | refused 34: over 1,024 visits inside one another, or more steps than allowed
7 lines: 1 matched whole, 2 in part, 2 not at all, 2 refused
";
    assert_eq!(folder.run("match t size lines --steps 37"), out(1, said));
    // an allowance equal to the steps is enough
    let all = folder.run("match --steps 38 t size lines").out;
    assert!(all.contains("\n     | ^^^^^^^^^^^^^^^^ 16 of 16 bytes, 38 steps\n"), "{all}");
    assert_eq!(folder.run("match t size lines").out, all, "many steps are allowed");
}

#[test]
fn a_match_of_nothing_is_a_match() {
    let said = "   \
   1 | b
     | 0 of 1 byte, 2 steps
   2 |
     | 0 of 0 bytes, 2 steps
2 lines: 1 matched whole, 1 in part, 0 not at all, 0 refused
";
    assert_eq!(Folder::of(&[("t", "a = { \"a\"? }")]).feed("match t a", "b\n\n"), out(0, said));
}

#[test]
fn endless_layouts_end() {
    let said = "   \
   1 | b
     | refused 34: over 1,024 visits inside one another, or more steps than allowed
1 line: 0 matched whole, 0 in part, 0 not at all, 1 refused
";
    for layout in ["a = { (\"a\"?)* }", "a = { a }"] {
        assert_eq!(Folder::of(&[("t", layout)]).feed("match t a -", "b"), out(1, said));
    }
}

#[test]
fn standard_input() {
    let folder = Folder::of(&[("t", FIELDS), ("lines", "x\n")]);
    let said = folder.run("match t field lines");
    assert_eq!((said.status, &said.err[..]), (0, ""));
    assert_eq!(folder.feed("match t field", "x\n"), said);
    assert_eq!(folder.feed("match t field -", "x"), said);
    assert_eq!(folder.feed("match - field lines", FIELDS), said);
    let none = "0 lines: 0 matched whole, 0 in part, 0 not at all, 0 refused\n";
    assert_eq!(folder.feed("match t field", ""), out(0, none));
    let twice = "flascjuvan: <stdin>: it is named twice, and can be read once\n";
    assert_eq!(folder.feed("match - field", FIELDS), err(2, twice));
    assert_eq!(folder.feed("match - field -", FIELDS), err(2, twice));
}

#[test]
fn a_layout_that_is_refused() {
    let said = "\
t:1:5: refused 4: this token isn't allowed here
  |
1 | a = b
  |     ^
";
    assert_eq!(Folder::of(&[("t", "a = b")]).run("match t a"), err(1, said));
    let said = "\
t:1:7: refused 13: PUSH_LITERAL, which plain reading has not
  |
1 | a = { PUSH_LITERAL(\"x\") }
  |       ^
";
    let folder = Folder::of(&[("t", "a = { PUSH_LITERAL(\"x\") }")]);
    assert_eq!(folder.run("match --plain t a"), err(1, said));
}

#[test]
fn what_cannot_be_run_is_shown_where_it_stands() {
    let why =
        "refused 31: a node that can't be run on lines: PEEK[..], PUSH, PUSH_LITERAL, a tag, \
               or a minimum above its maximum";
    for (body, column) in [
        ("\"x\" ~ PEEK[1..]", 7),
        ("PUSH(\"x\")", 1),
        // its node is the string, as pest has it
        ("PUSH_LITERAL(\"x\")", 14),
        ("!\"x\"{3, 2} ~ PEEK[..]", 2),
    ] {
        let text = format!("a = {{ \"x\" }}\nb = {{ {body} }}");
        let caret = " ".repeat(5 + column);
        let said = format!("t:2:{}: {why}\n  |\n2 | b = {{ {body} }}\n  | {caret}^\n", 6 + column);
        assert_eq!(Folder::of(&[("t", &text)]).run("match t a"), err(1, &said), "{body}");
    }
    let folder = Folder::of(&[("t", "a = { #t = \"x\" }"), ("lines", "x")]);
    let said = format!(
        "t:1:7: {why}; --plain reads without tags\n  |\n1 | a = {{ #t = \"x\" }}\n  |       ^\n"
    );
    assert_eq!(folder.run("match t a lines"), err(1, &said));
    assert_eq!(folder.run("match t a lines --plain").status, 0);
}

#[test]
fn a_rule_that_is_not_there() {
    let folder = Folder::of(&[("t", FIELDS), ("none", "/// a doc")]);
    let said = "t: refused 32: there is no rule feild; it has field, slip\n";
    assert_eq!(folder.run("match t feild"), err(1, said));
    assert_eq!(
        folder.run("match t ANY"),
        err(1, "t: refused 32: there is no rule ANY; it has field, slip\n")
    );
    assert_eq!(
        folder.run("match none a"),
        err(1, "none: refused 32: there is no rule a; it has none\n")
    );
    let said = "t: refused 32: there is no rule ␛[31m␊; it has field, slip\n";
    assert_eq!(ran(&mut folder.command(["match", "t", "\x1b[31m\n"])), err(1, said));
}

#[test]
fn of_many_rules_the_nearest_are_named() {
    let names = ["pan", "shot", "size", "sizes", "length", "width", "light", "remark", "words"];
    let text: String = names.iter().map(|name| format!("{name} = {{ \"x\" }}\n")).collect();
    let folder = Folder::of(&[("t", &text)]);
    let said = "t: refused 32: there is no rule sise; nearest are size, sizes, ";
    let ran = folder.run("match t sise");
    assert!(ran.err.starts_with(said) && ran.err.matches(", ").count() == 2, "{}", ran.err);
    assert_eq!((ran.status, ran.err.lines().count()), (1, 1));
}

#[test]
fn names_that_mean_nothing_are_shown_where_they_stand() {
    for (second, place, said) in [
        ("b = { a ~ c }", 11, "the name c is neither ANY nor a rule"),
        (
            "b = { ANY ~ ASCII_DIGIT }",
            13,
            "the name ASCII_DIGIT is neither ANY nor a rule; of pest's own rules there is ANY alone",
        ),
        ("ANY = { a }", 1, "a rule called ANY, which is one character"),
        ("a = { c }", 1, "a second rule called a"),
    ] {
        let folder = Folder::of(&[("t", &format!("a = {{ \"x\" }}\n{second}\n"))]);
        let caret = " ".repeat(place - 1);
        let said = format!("t:2:{place}: refused 32: {said}\n  |\n2 | {second}\n  | {caret}^\n");
        assert_eq!(folder.run("match t a"), err(1, &said));
    }
    // the rule that was asked for comes first
    let folder = Folder::of(&[("t", "a = { b }")]);
    assert_eq!(folder.run("match t b"), err(1, "t: refused 32: there is no rule b; it has a\n"));
}

#[test]
fn missing_files() {
    let folder = Folder::of(&[("t", FIELDS)]);
    let said = "flascjuvan: gone: there is no such file\n";
    assert_eq!(folder.run("match gone field t"), err(2, said));
    assert_eq!(folder.run("match t field gone"), err(2, said));
    assert_eq!(folder.run("match t field ."), err(2, "flascjuvan: .: this is a directory\n"));
    let both = "flascjuvan: gone: there is no such file\nflascjuvan: .: this is a directory\n";
    assert_eq!(folder.run("match gone field ."), err(2, both));
    let broken = "flascjuvan: /proc/self/mem: Input/output error (os error 5)\n";
    assert_eq!(folder.run("match t field /proc/self/mem"), err(2, broken));
}

#[test]
fn wrong_usage() {
    let folder = Folder::of(&[("t", FIELDS)]);
    for args in [
        "match",
        "match t",
        "match t field t t",
        "match t field --steps",
        "match t field --steps -1",
        "match t field --steps many",
        "match t field --steps 18446744073709551616",
    ] {
        let ran = folder.run(args);
        assert_eq!((ran.status, &ran.out[..]), (2, ""), "{args}");
        assert!(ran.err.contains("--help"), "{args}: {}", ran.err);
    }
    assert_eq!(folder.run("match t field t --steps 18446744073709551615").status, 0);
}

#[test]
fn colours() {
    let folder = Folder::of(&[("t", "a = { \"x\"+ }")]).with("lines", b"xxy\ny\nx\xff\n");
    let blue = |what: &str| format!("\x1b[1;34m{what}\x1b[0m");
    let said = [
        format!("{} \x1b[1;32mxx\x1b[0my\n", blue("   1 |")),
        format!("{} \x1b[1;32m^^\x1b[0m 2 of 3 bytes, 4 steps\n", blue("     |")),
        format!("{} y\n", blue("   2 |")),
        format!("{} \x1b[1mno match\x1b[0m, 2 steps\n", blue("     |")),
        format!("{} x�\n", blue("   3 |")),
        format!(
            "{}  \x1b[1;31m^\x1b[0m \x1b[1;31mrefused 33:\x1b[0m the line is not UTF-8\n",
            blue("     |")
        ),
        "3 lines: 0 matched whole, 1 in part, 1 not at all, 1 refused\n".to_owned(),
    ];
    let painted = folder.run("match --color always t a lines");
    assert_eq!(painted, out(1, &said.concat()));
    // the same words stand there without colours
    let mut plain = painted.out;
    for code in ["\x1b[0m", "\x1b[1m", "\x1b[1;31m", "\x1b[1;32m", "\x1b[1;34m"] {
        plain = plain.replace(code, "");
    }
    assert_eq!(folder.run("match t a lines").out, plain);
    assert_eq!(
        folder.run("match --color always t b lines").err,
        "\x1b[1mt:\x1b[0m \x1b[1;31mrefused 32:\x1b[0m there is no rule b; it has a\n"
    );
}

/// More lines than the library is lent records for at once, and than are read at once.
#[test]
fn many_lines_and_long_ones() {
    let folder = Folder::of(&[("t", "a = { \"x\"* }")]);
    let mut text = String::new();
    for i in 0..30_000 {
        text += &"x".repeat(i % 7);
        text += if i % 2 == 0 { "\n" } else { "\r\n" };
    }
    text += &"x".repeat(300_000);
    text += "y\nx";
    let ran = folder.with("lines", &text).run("match t a lines");
    assert_eq!((ran.status, &ran.err[..]), (0, ""));
    let lines: Vec<&str> = ran.out.lines().collect();
    assert_eq!(lines.len(), 2 * 30_002 + 1);
    for i in 0..30_000 {
        let length = i % 7;
        let shown = format!("{:4} | {}", i + 1, "x".repeat(length));
        assert_eq!(lines[2 * i], shown.trim_end());
        let told = format!("{length} of {length} byte{}", if length == 1 { "" } else { "s" });
        assert!(lines[2 * i + 1].contains(&told), "{}", lines[2 * i + 1]);
    }
    let front = "x".repeat(99);
    assert_eq!(lines[60_000], format!("30001 | …{front}y"));
    let marks = "^".repeat(100);
    assert_eq!(lines[60_001], format!("      | {marks} 300000 of 300001 bytes, 300002 steps"));
    assert_eq!(
        lines[60_004],
        "30002 lines: 30001 matched whole, 1 in part, 0 not at all, 0 refused"
    );
}

/// Lines are shown when they come, and a stream without an end is left when nobody reads.
#[test]
fn a_stream() {
    let folder = Folder::of(&[("t", "a = { \"x\" }")]);
    let mut command = folder.command(["match", "t", "a"]);
    let mut child = command
        .stdin(Stdio::piped())
        .stdout(Stdio::piped())
        .stderr(Stdio::piped())
        .spawn()
        .expect("the program starts");
    let mut lines = child.stdin.take().expect("a pipe");
    let mut shown = child.stdout.take().expect("a pipe");
    lines.write_all(b"x\nx").expect("it reads");
    let first = "   1 | x\n     | ^ 1 of 1 byte, 1 step\n";
    let mut said = vec![0; first.len()];
    shown.read_exact(&mut said).expect("it writes");
    assert_eq!(String::from_utf8_lossy(&said), first);
    drop(shown);
    while lines.write_all(&b"x\n".repeat(1000)).is_ok() {}
    let output = child.wait_with_output().expect("the program ends");
    assert_eq!((output.status.code(), &output.stderr[..]), (Some(0), &b""[..]));
}

#[test]
fn a_full_disk_is_told() {
    let folder = Folder::of(&[("t", FIELDS)]);
    let full = File::create("/dev/full").expect("the full device");
    let said =
        "flascjuvan: standard output can't be written: No space left on device (os error 28)\n";
    assert_eq!(ran(folder.command(["match", "t", "field", "t"]).stdout(full)), err(2, said));
}

use crate::{err, out, Folder};

#[test]
fn the_desks_example() {
    let folder = Folder::of(&[("t", "a = { b ~ c | \"x\"* }")]);
    assert_eq!(folder.run("print t"), out(0, "a = { ((b ~ c) | \"x\"*) }\n"));
}

#[test]
fn standard_input_and_a_file_one_after_the_other() {
    let folder = Folder::of(&[("t", "/// a doc\na={b}c={d}")]);
    assert_eq!(
        folder.feed("print - t", "x=_{#t=y}"),
        out(0, "x = _{ (#t = y) }\na = { b }\nc = { d }\n")
    );
}

#[test]
fn what_the_desk_has_no_room_for() {
    let text = format!("a = {{ {}b }}\n", "!".repeat(4095));
    assert_eq!(Folder::new().feed("print -", &text), out(0, &text));
    let text = format!("a={{\"{}\"}}", "\u{1}".repeat(20000));
    let printed = format!("a = {{ \"{}\" }}\n", "\\u{01}".repeat(20000));
    assert_eq!(Folder::new().feed("print -", text), out(0, &printed));
}

#[test]
fn a_refusal_is_not_printed_among_the_rules() {
    let folder = Folder::of(&[("bad", "a = { ~ }"), ("good", "a={b}")]);
    let ran = folder.run("print bad good");
    assert_eq!((ran.status, &ran.out[..]), (1, "a = { b }\n"));
    assert_eq!(
        ran.err,
        "bad:1:7: refused 4: this token isn't allowed here\n  |\n1 | a = { ~ }\n  |       ^\n"
    );
}

#[test]
fn check_names_what_would_change() {
    let folder = Folder::of(&[
        ("same", "a = { b }\n"),
        ("blanks", "a = {b}\n"),
        ("no_end", "a = { b }"),
        ("no_rules", "/// x"),
    ]);
    assert_eq!(folder.run("print --check same"), out(0, ""));
    assert_eq!(
        folder.run("print --check same blanks no_end no_rules"),
        out(1, "blanks\nno_end\nno_rules\n")
    );
    assert_eq!(folder.feed("print --check -", "a = { b }\r\n"), out(1, "<stdin>\n"));
}

#[test]
fn check_tells_refusals_too() {
    let said = "\
t:1:1: refused 4: the text ends too early
  |
1 |
  | ^
";
    assert_eq!(Folder::of(&[("t", "")]).run("print --check t"), err(1, said));
}

#[test]
fn short_has_the_fewest_brackets() {
    let folder =
        Folder::of(&[("left", "a={((b~c)~('0'..'9'))|\"x\"*}"), ("right", "a={b~(c~(d~e))}")]);
    assert_eq!(
        folder.run("print --short left right"),
        out(0, "a = { b ~ c ~ '0'..'9' | \"x\"* }\na = { b ~ (c ~ (d ~ e)) }\n")
    );
    // the full text of a chain to the right has fewer, and is read back grouped otherwise
    assert_eq!(folder.run("print right"), out(0, "a = { (b ~ c ~ d ~ e) }\n"));
    let printed = folder.run("print --short right").out;
    assert_eq!(folder.feed("same right -", printed), out(0, ""));
    assert_eq!(folder.feed("same right -", folder.run("print right").out).status, 1);
}

#[test]
fn short_where_the_program_has_no_room() {
    let text = format!("a = {{ {}b }}\n", "!".repeat(4095));
    assert_eq!(Folder::new().feed("print --short -", &text), out(0, &text));
    // a chain to the right: names, ` ~ ` between them, and a pair of brackets for all but two
    let name = "n".repeat(59);
    let right = format!("a={{{name}{}{}}}", format!("~({name}").repeat(1023), ")".repeat(1023));
    let ran = Folder::new().feed("print --short -", right);
    let bytes = 1024 * 59 + 1023 * 3 + 1022 * 2 + "a = {  }\n".len();
    assert_eq!((ran.status, ran.out.len(), &ran.err[..]), (0, bytes, ""));
    assert!(bytes > 65536);
}

#[test]
fn short_refuses_alike() {
    let folder = Folder::of(&[("bad", "a = { ~ }"), ("good", "a={(b~c)~d}")]);
    let ran = folder.run("print --short bad gone good");
    assert_eq!((ran.status, &ran.out[..]), (2, "a = { b ~ c ~ d }\n"));
    let refusal = folder.run("print bad").err;
    assert_eq!(ran.err, refusal + "flascjuvan: gone: there is no such file\n");
}

/// Each text is unchanged by its own way to print, and changed by the other.
#[test]
fn check_goes_by_the_text_that_is_asked_for() {
    let folder = Folder::of(&[
        ("full", "a = { ((b ~ c) ~ d) }\n"),
        ("short", "a = { b ~ c ~ d }\n"),
        ("both", "a = { b* }\n"),
    ]);
    assert_eq!(folder.run("print --check full short both"), out(1, "short\n"));
    assert_eq!(folder.run("print --check --short full short both"), out(1, "full\n"));
    assert_eq!(folder.run("print --short --check short both"), out(0, ""));
    assert_eq!(folder.feed("print --short --check -", "a = {").status, 1);
}

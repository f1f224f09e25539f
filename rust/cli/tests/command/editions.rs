//! `--edition`: what each reads, and that it is said.

use crate::{err, out, Folder, Ran};

/// Read by edition 1, refused by edition 2.
const ABOVE: &str = "a = { \"x\"{3, 2} }\n";

const REFUSED: &str = "\
t:1:11: refused 15: a repeat whose minimum is above its maximum
  |
1 | a = { \"x\"{3, 2} }
  |           ^
";

fn above() -> Folder {
    Folder::of(&[("t", ABOVE), ("u", "a = { \"x\"{2, 3} }\n")])
}

#[test]
fn check_says_which_edition() {
    let folder = above();
    assert_eq!(folder.run("check --edition 2 u"), out(0, "read by edition 2\n"));
    assert_eq!(folder.run("check --edition 1 t u"), out(0, "read by edition 1\n"));
    let said = format!("read by edition 2\n{REFUSED}");
    assert_eq!(folder.run("check --edition 2 t u"), out(1, &said));
    assert_eq!(folder.run("check u --edition=2 --plain t"), out(1, &said));
}

/// Where none is named, the first one reads as it always did; a word to the side where the second
/// would not.
#[test]
fn check_tells_where_editions_differ() {
    let said = "\
t:1:11: read by edition 1; by edition 2 refused 15: a repeat whose minimum is above its maximum
  |
1 | a = { \"x\"{3, 2} }
  |           ^
";
    assert_eq!(above().run("check t u"), err(0, said));
    assert_eq!(above().run("check --plain u t"), err(0, said));
    let painted = above().run("check --color always t");
    assert!(painted.err.starts_with(
        "\x1b[1mt:1:11:\x1b[0m read by edition 1; by edition 2 \x1b[1;31mrefused 15:\x1b[0m a repeat"
    ));
    // a text that is refused by both is refused once
    let folder = Folder::of(&[("t", "a = { x{3, 2}{0} }")]);
    let zero = folder.run("check t");
    assert!(zero.out.starts_with("t:1:15: refused 6: "), "{}", zero.out);
    assert_eq!((zero.status, &zero.err[..]), (1, ""));
    let above = folder.run("check --edition 2 t").out;
    assert!(above.starts_with("read by edition 2\nt:1:9: refused 15: "), "{above}");
}

#[test]
fn a_five_or_a_six_of_the_pair_comes_first() {
    for (text, at) in
        [("a={b{5, 0}}", "1:9: refused 6:"), ("a={b{4294967296,1}}", "1:6: refused 5:")]
    {
        let ran = Folder::of(&[("t", text)]).run("check --edition 2 t");
        assert!(ran.out.starts_with(&format!("read by edition 2\nt:{at}")), "{}", ran.out);
    }
}

#[test]
fn a_picture_by_each() {
    let folder = above();
    for name in ["t", "u"] {
        let picture = folder.run(&format!("tree {name}")).out;
        let first = format!("read by edition 1\n{picture}");
        assert_eq!(folder.run(&format!("tree --edition 1 {name}")), out(0, &first));
    }
    let picture = folder.run("tree u").out;
    let second = format!("read by edition 2\n{picture}");
    assert_eq!(folder.run("tree --edition 2 u"), out(0, &second));
    let refused = Ran { status: 1, out: "read by edition 2\n".to_owned(), err: REFUSED.to_owned() };
    assert_eq!(folder.run("tree --edition 2 t"), refused);
}

/// What is printed is the text alone; the edition is said beside it.
#[test]
fn printing_by_each() {
    let folder = above();
    assert_eq!(folder.run("print t"), out(0, ABOVE));
    let printed = Ran { err: "read by edition 1\n".to_owned(), ..out(0, ABOVE) };
    for args in ["print --edition 1", "print --short --edition 1"] {
        assert_eq!(folder.run(&format!("{args} t")), printed);
    }
    let refused = format!("read by edition 2\n{REFUSED}");
    assert_eq!(folder.run("print --edition 2 t"), err(1, &refused));
    assert_eq!(folder.run("print --edition 2 --check u"), err(0, "read by edition 2\n"));
}

#[test]
fn the_others_say_it_too() {
    let folder = above();
    let by = |edition, rest: &str| format!("read by edition {edition}\n{rest}");
    assert_eq!(folder.run("dropped --edition 1 t"), out(0, &by(1, "")));
    assert_eq!(folder.run("same --edition 1 t t"), out(0, &by(1, "")));
    assert_eq!(folder.run("same --edition 2 u u"), out(0, &by(2, "")));
    for args in ["dropped --edition 2 t", "same --edition 2 t u", "match --edition 2 t a -"] {
        let refused = Ran { status: 1, out: by(2, ""), err: REFUSED.to_owned() };
        assert_eq!(folder.feed(args, "x\n"), refused, "{args}");
    }
    let lines = folder.feed("match u a", "xx\n").out;
    assert_eq!(folder.feed("match --edition 2 u a", "xx\n"), out(0, &by(2, &lines)));
    // by the first it is read, and can't be run
    assert!(folder.feed("match t a", "xx\n").err.starts_with("t:1:7: refused 31: "));
}

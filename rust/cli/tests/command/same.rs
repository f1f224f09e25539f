use crate::{out, Folder, Ran};

fn compared(one: &str, other: &str) -> Ran {
    Folder::of(&[("one", one), ("other", other)]).run("same one other")
}

#[test]
fn blanks_comments_and_idle_brackets_make_no_difference() {
    assert_eq!(
        compared("a={b~c|\"A\"}", "/// doc\na = { // why\n ((b) ~ c) | \"\\x41\" }\n"),
        out(0, "")
    );
    assert_eq!(compared("/// no rules", "/// none here either"), out(0, ""));
}

#[test]
fn a_number_in_a_tree() {
    let said = "\
different: rule 2, size, in Seq: RepExact 3 against RepMin 3
--> one:2:10
  |
2 | size = { d{3} ~ e }
  |          ^
--> other:3:2
  |
3 | \td{3,}
  | \t^
";
    let one = "a = { b }\nsize = { d{3} ~ e }\n";
    let other = "a={b}\nsize = {\n\td{3,}\n~ e }\n";
    assert_eq!(compared(one, other), out(1, said));
}

#[test]
fn names_marks_and_rules_that_are_missing() {
    let said = "\
different: rule 1, a: name a against name b
--> one:1:1
  |
1 | a={c}
  | ^
--> other:1:1
  |
1 | b={c}
  | ^
";
    assert_eq!(compared("a={c}", "b={c}"), out(1, said));
    let said = "\
different: rule 1, a: mark @ against no mark
--> one:1:1
  |
1 | a=@{c}
  | ^
--> other:1:1
  |
1 | a={c}
  | ^
";
    assert_eq!(compared("a=@{c}", "a={c}"), out(1, said));
    let said = "\
different: rule 2, d: no rule against name d
--> one
--> other:2:1
  |
2 | d={e}
  | ^
";
    assert_eq!(compared("a={c}", "a={c}\nd={e}"), out(1, said));
}

#[test]
fn standard_input() {
    let folder = Folder::of(&[("t", "a={b}")]);
    assert_eq!(folder.feed("same - t", "a = { b }"), out(0, ""));
    assert_eq!(folder.feed("same t -", "a = { b }"), out(0, ""));
}

#[test]
fn both_refusals_are_told() {
    let said = "\
one:1:1: refused 3: no token or escape can be made of what stands here
  |
1 | %
  | ^
other:1:1: refused 4: the text ends too early
  |
1 |
  | ^
";
    assert_eq!(compared("%", ""), crate::err(1, said));
}

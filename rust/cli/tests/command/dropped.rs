use crate::{err, out, Folder};

#[test]
fn tags_and_push_literals() {
    let second = "d = {\n\t#e_ = e | PUSH_LITERAL ( \"x\" )* }\n";
    let folder = Folder::of(&[("t", "a = { #size = b{3} ~ c }\n"), ("u", second)]);
    let said = "\
t:1:7: dropped: the tag #size of b{3}
u:2:2: dropped: the tag #e_ of e
u:2:12: refused 13: PUSH_LITERAL ( \"x\" ), which plain reading has not
";
    assert_eq!(folder.run("dropped t u"), out(1, said));
}

#[test]
fn nothing_is_lost_nothing_is_said() {
    assert_eq!(Folder::new().feed("dropped -", "a = { PUSH(b) ~ \"#t\" }"), out(0, ""));
}

#[test]
fn something_is_said_exactly_where_plain_reading_differs() {
    for (text, loses) in [
        ("a = { b }", false),
        ("a = { PUSH(b) ~ PEEK[..] }", false),
        ("a = { #t = b }", true),
        ("a = { (#t = b)* }", true),
        ("a = { b } c = { PUSH_LITERAL(\"\") }", true),
    ] {
        let folder = Folder::of(&[("t", text)]);
        assert_eq!(folder.run("dropped t").status, i32::from(loses), "{text}");
        assert_eq!(folder.run("tree t") != folder.run("tree --plain t"), loses, "{text}");
    }
}

#[test]
fn a_refused_text_drops_nothing() {
    let said = "\
t:1:1: refused 3: no token or escape can be made of what stands here
  |
1 | #
  | ^
";
    assert_eq!(Folder::of(&[("t", "#")]).run("dropped t"), err(1, said));
}

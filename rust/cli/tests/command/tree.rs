use crate::{err, out, Folder};

const TEXT: &str = "a = { b ~\n  #t = c | \"\u{1}\"* }\n";

const TAGGED: &str = r#"a  0..1  1:1
└─ Choice  6..25  1:7
   ├─ Seq  6..18  1:7
   │  ├─ Ident b  6..7  1:7
   │  └─ NodeTag #t  12..18  2:3
   │     └─ Ident c  17..18  2:8
   └─ Rep  21..25  2:12
      └─ Str "\u{01}"  21..24  2:12
"#;

const PLAIN: &str = r#"a  0..1  1:1
└─ Choice  6..25  1:7
   ├─ Seq  6..18  1:7
   │  ├─ Ident b  6..7  1:7
   │  └─ Ident c  17..18  2:8
   └─ Rep  21..25  2:12
      └─ Str "\u{01}"  21..24  2:12
"#;

#[test]
fn a_picture() {
    let folder = Folder::of(&[("t", TEXT)]);
    assert_eq!(folder.run("tree t"), out(0, TAGGED));
    assert_eq!(folder.run("tree --plain t"), out(0, PLAIN));
}

#[test]
fn standard_input() {
    assert_eq!(
        Folder::new().feed("tree -", "a={b}"),
        out(0, "a  0..1  1:1\n└─ Ident b  3..4  1:4\n")
    );
}

#[test]
fn several_files_have_titles() {
    let folder = Folder::of(&[("t", "a={b}"), ("u", "c={d}")]);
    let said = "\
==> t <==
a  0..1  1:1
└─ Ident b  3..4  1:4
==> u <==
c  0..1  1:1
└─ Ident d  3..4  1:4
";
    assert_eq!(folder.run("tree t u"), out(0, said));
}

#[test]
fn a_refusal_is_no_picture() {
    let said = "\
t:1:4: refused 4: this token isn't allowed here
  |
1 | a={}
  |    ^
";
    assert_eq!(Folder::of(&[("t", "a={}")]).run("tree t"), err(1, said));
}

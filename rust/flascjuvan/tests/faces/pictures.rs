//! What people look at: pictures, and trees by name.

use flascjuvan::{Expr, Grammar, Rule, RuleType};

use crate::{body, ident, tagged};

const TEXT: &str = "note = ${ #t = PUSH('a'..'z'){2, 3} ~\n PEEK[-1..] } b = { \"\\x01\"{4} | ^\"x\" }";

#[test]
fn pictures_show_what_belongs_to_what() {
    let picture = "\
a  0..1
└─ Choice  6..18  line 1
   ├─ Seq  6..11  line 1
   │  ├─ Ident b  6..7  line 1
   │  └─ Ident c  10..11  line 1
   └─ Rep  14..18  line 1
      └─ Str \"x\"  14..17  line 1
";
    assert_eq!(tagged("a = { b ~ c | \"x\"* }").picture().to_string(), picture);
    let picture = "\
note $  0..4
└─ Seq  10..49  line 1
   ├─ NodeTag #t  10..35  line 1
   │  └─ RepMinMax 2 3  15..35  line 1
   │     └─ Push  15..28  line 1
   │        └─ Range 'a'..'z'  20..28  line 1
   └─ PeekSlice -1..  39..49  line 2
b  52..53
└─ Choice  58..74  line 2
   ├─ RepExact 4  58..67  line 2
   │  └─ Str \"\\u{01}\"  58..64  line 2
   └─ Insens \"x\"  70..74  line 2
";
    assert_eq!(tagged(TEXT).picture().to_string(), picture);
    assert_eq!(format!("{:#?}", tagged(TEXT)), picture.trim_end());
    assert_eq!(Grammar::default().picture().to_string(), "");
    assert_eq!(format!("{:#?}", Grammar::default()), "");
}

#[test]
fn pictures_with_lines() {
    let text = "a = {\r\n \"é\" ~ b?\n}\n";
    let picture = "\
a  0..1  1:1
└─ Seq  8..17  2:2
   ├─ Str \"é\"  8..12  2:2
   └─ Opt  15..17  2:8
      └─ Ident b  15..16  2:8
";
    assert_eq!(tagged(text).picture_of(text.as_bytes()).to_string(), picture);
    // another text than the one that was read has other lines, and a short one none of that number
    assert!(tagged(text).picture_of(b"").to_string().ends_with("Ident b  15..16  1:1\n"));
}

#[test]
fn trees_by_name() {
    let rules = tagged(TEXT).rules();
    let note = r##"NodeTag(RepMinMax(Push(Range('a', 'z')), 2, 3), "t")"##;
    let note = format!("Seq({note}, PeekSlice(-1, None))");
    assert_eq!(format!("{:?}", rules[0].expr), note);
    assert_eq!(format!("{:?}", rules[0]), format!("Rule {{ name: \"note\", ty: CompoundAtomic, expr: {note} }}"));
    let names = [
        ("PEEK[1..2] ~ a{,3}", r#"Seq(PeekSlice(1, Some(2)), RepMax(Ident("a"), 3))"#),
        ("&a? | PUSH_LITERAL(\"x\")", r#"Choice(PosPred(Opt(Ident("a"))), PushLiteral("x"))"#),
        ("a+ ~ a{3} ~ a{3,}", r#"Seq(Seq(RepOnce(Ident("a")), RepExact(Ident("a"), 3)), RepMin(Ident("a"), 3))"#),
    ];
    for (text, name) in names {
        assert_eq!(format!("{:?}", body(text)), name);
    }
    assert_eq!(
        format!("{:?}", tagged("a = @{ b ~ c? }")),
        "Grammar([ParserRule { name: \"a\", span: 0..1, ty: Atomic, \
         node: Seq(Ident(\"b\") 7..8, Opt(Ident(\"c\") 11..12) 11..13) 7..13 }])"
    );
    let rule = tagged("a = @{ b ~ c? }").parser_rules().remove(0);
    assert_eq!(format!("{:?}", rule.node.expr), "Seq(Ident(\"b\") 7..8, Opt(Ident(\"c\") 11..12) 11..13)");
}

#[test]
fn trees_drawn() {
    let rule = tagged("a = @{ b ~ c? }").parser_rules().remove(0);
    let drawn = "a @  0..1\n└─ Seq  7..13\n   ├─ Ident b  7..8\n   └─ Opt  11..13\n      └─ Ident c  11..12";
    assert_eq!(format!("{rule:#?}"), drawn);
    assert_eq!(format!("{:#?}", rule.node), "Seq  7..13\n├─ Ident b  7..8\n└─ Opt  11..13\n   └─ Ident c  11..12");
    assert_eq!(format!("{:#?}", rule.node.expr), "Seq\n├─ Ident b  7..8\n└─ Opt  11..13\n   └─ Ident c  11..12");
    let rule = Rule::from(rule);
    assert_eq!(format!("{rule:#?}"), "a @\n└─ Seq\n   ├─ Ident b\n   └─ Opt\n      └─ Ident c");
    assert_eq!(format!("{:#?}", rule.expr), "Seq\n├─ Ident b\n└─ Opt\n   └─ Ident c");
}

/// A name that is no word can't be taken for another line, nor for a word.
#[test]
fn names_that_are_no_words() {
    let tag = Expr::NodeTag(Box::new(ident("b\nc")), String::new());
    let odd = Rule { name: "no word".to_owned(), ty: RuleType::Silent, expr: tag };
    assert_eq!(format!("{odd:#?}"), "\"no word\" _\n└─ NodeTag #\"\"\n   └─ Ident \"b\\nc\"");
    assert_eq!(format!("{:?}", odd.expr), r#"NodeTag(Ident("b\nc"), "")"#);
    let picture = Grammar::from(vec![odd]).picture().to_string();
    assert_eq!(picture, "\"no word\" _  0..0\n└─ NodeTag #\"\"  0..0\n   └─ Ident \"b\\nc\"  0..0\n");
    let drawn = |name| format!("{:#?}", ident(name));
    let names = ["PUSHED", "_1a", "1a", "", "a-b", "ä"];
    let shown = ["Ident PUSHED", "Ident _1a", "Ident \"1a\"", "Ident \"\"", "Ident \"a-b\"", "Ident \"ä\""];
    assert_eq!(names.map(drawn), shown);
}

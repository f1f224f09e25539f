use crate::{err, out, Folder};

#[test]
fn a_line_a_token() {
    let first = "a_1 = @{ \"\t\n\x1b\" ~ ^\"é\" ~ 'x'..'\\'' }";
    let second = "b = ${ #t = PEEK[-1..] | &c{2,} ~ !(d)?*+ }";
    let text = format!("//! g\r\n/// l\n{first}\n{second}");
    let said = "\
1:1   `//!` doc (26)          0..5    //! g
2:1   `///` doc (27)          7..12   /// l
3:1   word (18)               13..16  a_1
3:5   `=` (1)                 17..18  =
3:7   `@` (16)                19..20  @
3:8   `{` (2)                 20..21  {
3:10  string (23)             22..27  \"␉␊␛\"
4:4   `~` (10)                28..29  ~
4:6   `^` string (24)         30..35  ^\"é\"
4:11  `~` (10)                36..37  ~
4:13  character literal (25)  38..41  'x'
4:16  `..` (22)               41..43  ..
4:18  character literal (25)  43..47  '\\''
4:23  `}` (3)                 48..49  }
5:1   word (18)               50..51  b
5:3   `=` (1)                 52..53  =
5:5   `$` (17)                54..55  $
5:6   `{` (2)                 55..56  {
5:8   tag (19)                57..59  #t
5:11  `=` (1)                 60..61  =
5:13  word (18)               62..66  PEEK
5:17  `[` (4)                 66..67  [
5:18  negative number (21)    67..69  -1
5:20  `..` (22)               69..71  ..
5:22  `]` (5)                 71..72  ]
5:24  `|` (11)                73..74  |
5:26  `&` (8)                 75..76  &
5:27  word (18)               76..77  c
5:28  `{` (2)                 77..78  {
5:29  number (20)             78..79  2
5:30  `,` (15)                79..80  ,
5:31  `}` (3)                 80..81  }
5:33  `~` (10)                82..83  ~
5:35  `!` (9)                 84..85  !
5:36  `(` (6)                 85..86  (
5:37  word (18)               86..87  d
5:38  `)` (7)                 87..88  )
5:39  `?` (12)                88..89  ?
5:40  `*` (13)                89..90  *
5:41  `+` (14)                90..91  +
5:43  `}` (3)                 92..93  }
";
    assert_eq!(Folder::new().with("t", text).run("tokens t"), out(0, said));
}

#[test]
fn a_text_that_is_no_grammar_has_tokens() {
    assert_eq!(
        Folder::new().feed("tokens -", "} a"),
        out(0, "1:1  `}` (3)    0..1  }\n1:3  word (18)  2..3  a\n")
    );
    assert_eq!(Folder::new().feed("tokens -", " // nothing"), out(0, ""));
}

#[test]
fn what_is_no_token_is_refused() {
    let said = "\
t:1:3: refused 3: no token or escape can be made of what stands here
  |
1 | a %
  |   ^
";
    assert_eq!(Folder::of(&[("t", "a %")]).run("tokens t"), err(1, said));
}

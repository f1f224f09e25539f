use crate::{err, out, Folder};

// that each example answers its number and place is tested beside the examples

#[test]
fn all_numbers() {
    let ran = Folder::new().run("explain");
    assert_eq!((ran.status, &ran.err[..]), (0, ""));
    let numbers: Vec<&str> = ran.out.lines().map(|line| line[..2].trim()).collect();
    assert_eq!(numbers.join(" "), "1 2 3 4 5 6 7 8 9 10 11 12 13 14 15 20 21 22 23 30 31 32 33 34");
    assert!(ran.out.starts_with(" 1  the text has over 65,536 bytes\n 2  the text is not UTF-8\n"));
}

#[test]
fn a_refusal_in_words() {
    let said = "\
refused 5: a repeat number over 4,294,967,295

What it means
A repeat's number is at most 4,294,967,295. Leading zeros don't count.

Place
The number's first byte.

Order
After 1, 2, 3, 4 and 9, so in a text whose tokens are all good and well placed. 5, 6,
7, 8, 13 and, by edition 2, 15 are looked for together, from the left.

Example
  |
1 | a={b{4294967296}}
  |      ^
refused 5 at 5

How people get it, and what to do
A digit too many, or a number meant as `any`. Without an upper bound write {n,}.

A large number for `any more`:
    a = { b{1, 9999999999} }    refused 5 at 11
    a = { b{1,} }               is read
";
    assert_eq!(Folder::new().run("explain 5"), out(0, said));
}

#[test]
fn a_refusal_of_the_matcher_in_words() {
    let ran = Folder::new().run("explain 34");
    let example = "
Example
r={\"\"*}
run over \"a\" in at most 1000 steps: refused 34 at 0
";
    assert!(ran.out.contains(example), "{}", ran.out);
    let slip = "
What may be missing, any number of times:
    a = { (\"3\"?)* }    refused 34 at 0
    a = { \"3\"* }       is run
";
    assert!(ran.out.contains(slip), "{}", ran.out);
    let line = "
r={\"a\"}
run over this line:
  |
1 | a�
  |  ^
refused 33 at 1
";
    assert!(Folder::new().run("explain 33").out.contains(line));
}

#[test]
fn the_second_edition_in_words() {
    let said = "\
refused 15: a repeat whose minimum is above its maximum

What it means
A repeat's minimum is at most its maximum, by edition 2 of the rules for layouts.
Leading zeros don't count, and the two may be equal. Edition 1, which the desk reads by,
has no such rule.

Place
The minimum's first byte.

Order
After 1, 2, 3, 4 and 9, and together with 5, 6, 7, 8 and 13, from the left. But where 5
or 6 is said of a number of the same pair, that comes first: b{5, 0} is 6 at the 0.

Example
  |
1 | a={b{3,2}}
  |      ^
read by edition 2: refused 15 at 5

How people get it, and what to do
By edition 1 such a repeat is read, and then it can't be run on any line: `flascjuvan
match` gives 31. Put the smaller number first.

Minimum and maximum the wrong way round:
    a = { b{4, 2} }    refused 15 at 8
    a = { b{2, 4} }    is read

Three, and up to two more. The second number counts all of them:
    a = { b{3, 2} }    refused 15 at 8
    a = { b{3, 5} }    is read
";
    assert_eq!(Folder::new().run("explain 15"), out(0, said));
}

#[test]
fn every_number_has_words() {
    for number in (1..=15).chain(20..=23).chain(30..=34) {
        let ran = Folder::new().run(&format!("explain {number}"));
        assert_eq!((ran.status, &ran.err[..]), (0, ""));
        assert!(ran.out.starts_with(&format!("refused {number}: ")));
        assert!(
            ran.out.contains(&format!(": refused {number} at "))
                || ran.out.contains(&format!("\nrefused {number} at "))
        );
    }
}

#[test]
fn other_numbers_are_wrong_usage() {
    for number in ["0", "16", "19", "24", "29", "35", "18446744073709551615"] {
        let said =
            format!("flascjuvan: there is no refusal {number}; `flascjuvan explain` lists them\n");
        assert_eq!(Folder::new().run(&format!("explain {number}")), err(2, &said));
    }
    assert_eq!(Folder::new().run("explain four").status, 2);
    assert_eq!(Folder::new().run("explain 4 5").status, 2);
}

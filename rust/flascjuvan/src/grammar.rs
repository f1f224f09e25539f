//! Tables and trees, both ways. Children stand before their nodes, so both ways are one walk and no recursion.

use std::fmt;
use std::str::FromStr;

use crate::picture::{self, Picture};
use crate::shape::{fold, Shape};
use crate::{print, print_short, read, Expr, Level, ParserExpr, ParserNode, ParserRule, Refusal, Rule, RuleType, Span};

/// The numbers of a node record.
pub(crate) const NODE_RECORD: usize = 7;
/// Where the line stands in a node record.
const LINE: usize = 6;
/// The numbers of a rule record.
pub(crate) const RULE_RECORD: usize = 6;

/// A grammar: the tables that reading makes and printing takes.
///
/// It comes from [`read`] or [`read_edition`](crate::read_edition), from [`parse`](str::parse) (which reads tagged, by the
/// first edition) or from rules. Looked at, it is
///
/// - its text by [`Display`](fmt::Display), as [`print`](fn@print) gives it and, by `{:#}`, as [`print_short`] does.
///   One that can't be printed, which only rules made by hand can be, shows why in the form `<refused 21 at 0: ...>`,
///   which nothing reads as a grammar;
/// - a picture of what belongs to what by [`picture`](Grammar::picture) and `{:#?}`;
/// - all rules by name on one line, spans included, by `{:?}`.
///
/// `==` compares spans and lines too, [`same`](Grammar::same) doesn't.
///
/// What [`print_short`] printed is read back as the [`same`](Grammar::same) rules. So is what [`print`](fn@print)
/// printed, but that a chain to the right comes back grouped to the left: `a ~ (b ~ c)` prints as `(a ~ b ~ c)`, which
/// reads as `(a ~ b) ~ c`. Not read back, of both, are a text of over 65,536 bytes or with over 1,024 brackets open at
/// once, the empty text of a grammar without rules, counts of 0 that were put in by hand and, by
/// [`Edition::Second`](crate::Edition::Second), a minimum above its maximum.
///
/// ```
/// use flascjuvan::Grammar;
///
/// let grammar: Grammar = "a = { b ~ c | \"x\"* }".parse()?;
/// assert_eq!(grammar.to_string(), "a = { ((b ~ c) | \"x\"*) }\n");
/// assert_eq!(grammar.rules()[0].to_string(), "a = { ((b ~ c) | \"x\"*) }");
/// assert_eq!(format!("{grammar:#}"), "a = { b ~ c | \"x\"* }\n");
/// # Ok::<(), flascjuvan::Refusal>(())
/// ```
#[derive(Clone, Default, Eq, Hash, PartialEq)]
pub struct Grammar {
    nodes: Vec<u32>,
    rules: Vec<u32>,
    store: Vec<u8>,
}

/// [`print`](fn@print) or [`print_short`].
pub(crate) type Printer = fn(&Grammar) -> Result<String, Refusal>;

/// A part of the store: offset and length.
type Part = (u32, u32);

/// A rule as its record has it.
pub(crate) struct RuleRow<'a> {
    pub(crate) name: &'a str,
    pub(crate) ty: RuleType,
    pub(crate) root: usize,
    pub(crate) span: Span,
}

impl Grammar {
    pub(crate) fn of(nodes: Vec<u32>, rules: Vec<u32>, store: Vec<u8>) -> Grammar {
        Grammar { nodes, rules, store }
    }

    /// The one rule `r = { expr }`.
    pub(crate) fn of_body(expr: &Expr) -> Grammar {
        let mut grammar = Grammar::default();
        grammar.push_rule("r", RuleType::Normal, expr);
        grammar
    }

    /// The tables as the C interface has them: node records of seven numbers, rule records of six, and the store, which
    /// holds names, tags and strings. The project's README.md says what the numbers are.
    ///
    /// ```
    /// use flascjuvan::Grammar;
    ///
    /// let grammar: Grammar = "r = { (a)* }".parse()?;
    /// let (nodes, rules, store) = grammar.tables();
    /// // kind, span start, span end, p, q, r, line: the word, then its repetition
    /// assert_eq!(nodes, [4, 7, 9, 1, 1, 0, 1, 11, 6, 10, 0, 0, 0, 1]);
    /// // name offset, name length, mark, root, span start, span end
    /// assert_eq!(rules, [0, 1, 0, 1, 0, 1]);
    /// assert_eq!(store, b"ra");
    /// # Ok::<(), flascjuvan::Refusal>(())
    /// ```
    pub fn tables(&self) -> (&[u32], &[u32], &[u8]) {
        (&self.nodes, &self.rules, &self.store)
    }

    /// The rules as trees, without spans.
    ///
    /// ```
    /// use flascjuvan::{Expr, Grammar};
    ///
    /// let grammar: Grammar = "a = { !b* }".parse()?;
    /// let rep = Expr::Rep(Box::new(Expr::Ident("b".into())));
    /// assert_eq!(grammar.rules()[0].expr, Expr::NegPred(Box::new(rep)));
    /// # Ok::<(), flascjuvan::Refusal>(())
    /// ```
    pub fn rules(&self) -> Vec<Rule> {
        let rule = |rule: RuleRow<'_>, expr| Rule { name: rule.name.to_owned(), ty: rule.ty, expr };
        self.trees(|_, shape| Expr::of(shape), rule)
    }

    /// The rules as trees with spans: [`ParserRule`] shows an example.
    pub fn parser_rules(&self) -> Vec<ParserRule> {
        let node = |index, shape| ParserNode { expr: ParserExpr::of(shape), span: self.span(index) };
        let rule =
            |rule: RuleRow<'_>, node| ParserRule { name: rule.name.to_owned(), span: rule.span, ty: rule.ty, node };
        self.trees(node, rule)
    }

    /// The bytes that the node of this index spans, which is what 21 and 31 have for a place; None if there is no such
    /// node. All are `0..0` in a grammar that was made of rules.
    ///
    /// ```
    /// use flascjuvan::Grammar;
    ///
    /// let text = "r = { a ~ PUSH(b) }";
    /// let grammar: Grammar = text.parse()?;
    /// let refusal = grammar.match_line("r", "", 9).unwrap_err();
    /// assert_eq!((refusal.number(), refusal.place), (31, 2));
    /// assert_eq!(grammar.node_span(2).unwrap().as_str(text), Some("PUSH(b"));
    /// assert_eq!(grammar.node_span(4), None);
    /// # Ok::<(), flascjuvan::Refusal>(())
    /// ```
    pub fn node_span(&self, index: usize) -> Option<Span> {
        (index < self.nodes.len() / NODE_RECORD).then(|| self.span(index))
    }

    /// The line, from 1, in which the node of this index starts: one plus the LF bytes before its span, so that CRLF ends a
    /// line as LF does. None if there is no such node, or if the grammar was made of rules.
    ///
    /// ```
    /// use flascjuvan::Grammar;
    ///
    /// let grammar: Grammar = "r = {\r\n  a ~\n  b\n}".parse()?;
    /// assert_eq!([0, 1, 2, 3].map(|index| grammar.line(index)), [Some(2), Some(3), Some(2), None]);
    /// assert_eq!(Grammar::from(grammar.rules()).line(0), None);
    /// # Ok::<(), flascjuvan::Refusal>(())
    /// ```
    pub fn line(&self, index: usize) -> Option<usize> {
        let record = self.nodes.chunks_exact(NODE_RECORD).nth(index)?;
        (record[LINE] != 0).then_some(record[LINE] as usize)
    }

    /// A picture of what belongs to what, with the bytes of the text that each rule's name and each node spans, and the
    /// line in which the node starts.
    ///
    /// ```
    /// use flascjuvan::Grammar;
    ///
    /// let grammar: Grammar = "a = { b ~ \"\\x01\"* }".parse()?;
    /// assert_eq!(
    ///     grammar.picture().to_string(),
    ///     "\
    /// a  0..1
    /// └─ Seq  6..17  line 1
    ///    ├─ Ident b  6..7  line 1
    ///    └─ Rep  10..17  line 1
    ///       └─ Str \"\\u{01}\"  10..16  line 1
    /// "
    /// );
    /// # Ok::<(), flascjuvan::Refusal>(())
    /// ```
    pub fn picture(&self) -> Picture<'_> {
        Picture { grammar: self, text: None }
    }

    /// The picture of a grammar that was read from this text, with the line and column of each start as well.
    ///
    /// ```
    /// use flascjuvan::Grammar;
    ///
    /// let text = "a = {\n  b*\n}\n";
    /// let grammar: Grammar = text.parse()?;
    /// let picture = grammar.picture_of(text.as_bytes()).to_string();
    /// assert_eq!(picture, "a  0..1  1:1\n└─ Rep  8..10  2:3\n   └─ Ident b  8..9  2:3\n");
    /// # Ok::<(), flascjuvan::Refusal>(())
    /// ```
    pub fn picture_of<'a>(&'a self, text: &'a [u8]) -> Picture<'a> {
        Picture { grammar: self, text: Some(text) }
    }

    /// Makes a tree of each rule's nodes, and something of the rule with its tree.
    fn trees<'a, T, R>(
        &'a self,
        node: impl Fn(usize, Shape<&'a str, T>) -> T,
        of_rule: impl Fn(RuleRow<'a>, T) -> R,
    ) -> Vec<R> {
        let mut made: Vec<T> = Vec::new();
        let mut next = 0;
        let mut rules = Vec::new();
        for rule in self.rule_rows() {
            for index in next..=rule.root {
                let shape = self.shape(index).over(&mut made);
                made.push(node(index, shape));
            }
            next = rule.root + 1;
            let tree = made.pop().expect("a rule's root is a node");
            rules.push(of_rule(rule, tree));
        }
        rules
    }

    pub(crate) fn rule_rows(&self) -> impl Iterator<Item = RuleRow<'_>> {
        self.rules.chunks_exact(RULE_RECORD).map(|record| RuleRow {
            name: self.text((record[0], record[1])),
            ty: rule_type(record[2]),
            root: record[3] as usize,
            span: span(record[4], record[5]),
        })
    }

    fn record(&self, index: usize) -> &[u32] {
        &self.nodes[NODE_RECORD * index..NODE_RECORD * (index + 1)]
    }

    /// The bytes that a node spans.
    pub(crate) fn span(&self, index: usize) -> Span {
        let record = self.record(index);
        span(record[1], record[2])
    }

    /// A node, with the indexes of its children.
    pub(crate) fn shape(&self, index: usize) -> Shape<&str, usize> {
        unpacked(self.record(index)).map(|part| self.text(part), |child| child as usize)
    }

    /// A part of the store. Those that tables name are UTF-8.
    fn text(&self, (offset, length): Part) -> &str {
        let part = &self.store[offset as usize..offset as usize + length as usize];
        std::str::from_utf8(part).expect("a text in the store is UTF-8")
    }

    /// Appends a rule's records and texts, as reading it would. Spans and lines are 0: there is no text.
    fn push_rule(&mut self, name: &str, ty: RuleType, expr: &Expr) {
        let Grammar { nodes, rules, store } = self;
        let (offset, length) = push_text(store, name);
        // on the way down texts, so that a tag's stands before those below it; on the way up nodes
        let root = fold(
            expr,
            |expr| ((), expr.shape().map(|s| push_text(store, s), |child| child)),
            |(), shape| push_node(nodes, shape),
        );
        rules.extend_from_slice(&[offset, length, ty as u32, root, 0, 0]);
    }
}

impl FromStr for Grammar {
    type Err = Refusal;

    /// Reads a text at [`Level::Tagged`], as [`read`] does.
    fn from_str(text: &str) -> Result<Grammar, Refusal> {
        read(text, Level::Tagged)
    }
}

impl Extend<Rule> for Grammar {
    /// Appends rules, as reading them would but without spans.
    ///
    /// # Panics
    ///
    /// If names and strings come to over 4 GiB, which the tables can't number.
    fn extend<I: IntoIterator<Item = Rule>>(&mut self, rules: I) {
        rules.into_iter().for_each(|rule| self.push_rule(&rule.name, rule.ty, &rule.expr));
    }
}

impl FromIterator<Rule> for Grammar {
    /// The grammar of rules that were made or edited by hand: its tables are as reading makes them, but without spans.
    ///
    /// ```
    /// use flascjuvan::Grammar;
    ///
    /// let grammar: Grammar = "a = { b } c = { d } e = { f }".parse()?;
    /// let without_c: Grammar = grammar.rules().into_iter().filter(|rule| rule.name != "c").collect();
    /// assert_eq!(without_c.to_string(), "a = { b }\ne = { f }\n");
    /// # Ok::<(), flascjuvan::Refusal>(())
    /// ```
    ///
    /// # Panics
    ///
    /// If names and strings come to over 4 GiB, which the tables can't number.
    fn from_iter<I: IntoIterator<Item = Rule>>(rules: I) -> Grammar {
        let mut grammar = Grammar::default();
        grammar.extend(rules);
        grammar
    }
}

impl From<Vec<Rule>> for Grammar {
    /// As [`from_iter`](Grammar::from_iter).
    fn from(rules: Vec<Rule>) -> Grammar {
        rules.into_iter().collect()
    }
}

impl From<&[Rule]> for Grammar {
    /// As [`from_iter`](Grammar::from_iter); the rules are only looked at.
    fn from(rules: &[Rule]) -> Grammar {
        let mut grammar = Grammar::default();
        rules.iter().for_each(|rule| grammar.push_rule(&rule.name, rule.ty, &rule.expr));
        grammar
    }
}

impl fmt::Display for Grammar {
    fn fmt(&self, f: &mut fmt::Formatter<'_>) -> fmt::Result {
        f.pad(&printer_of(f)(self).unwrap_or_else(picture::refused))
    }
}

impl fmt::Debug for Grammar {
    fn fmt(&self, f: &mut fmt::Formatter<'_>) -> fmt::Result {
        if f.alternate() {
            return f.write_str(self.picture().to_string().trim_end_matches('\n'));
        }
        f.debug_tuple("Grammar").field(&self.parser_rules()).finish()
    }
}

/// The printer that a format asks for: `{:#}` is the short text.
pub(crate) fn printer_of(f: &fmt::Formatter<'_>) -> Printer {
    if f.alternate() {
        print_short
    } else {
        print
    }
}

fn push_text(store: &mut Vec<u8>, text: &str) -> Part {
    let offset = narrow(store.len());
    store.extend_from_slice(text.as_bytes());
    (offset, narrow(text.len()))
}

/// Appends a node, and gives its index.
fn push_node(nodes: &mut Vec<u32>, shape: Shape<Part, u32>) -> u32 {
    let index = narrow(nodes.len() / NODE_RECORD);
    let [kind, p, q, r] = packed(shape);
    nodes.extend_from_slice(&[kind, 0, 0, p, q, r, 0]);
    index
}

/// A node's kind, p, q and r.
fn packed(shape: Shape<Part, u32>) -> [u32; 4] {
    match shape {
        Shape::Str((offset, length)) => [1, offset, length, 0],
        Shape::Insens((offset, length)) => [2, offset, length, 0],
        Shape::Range(a, b) => [3, a.into(), b.into(), 0],
        Shape::Ident((offset, length)) => [4, offset, length, 0],
        // two's complement
        Shape::PeekSlice(a, None) => [5, a as u32, 0, 0],
        Shape::PeekSlice(a, Some(b)) => [5, a as u32, 1, b as u32],
        Shape::PosPred(child) => [6, child, 0, 0],
        Shape::NegPred(child) => [7, child, 0, 0],
        Shape::Seq(left, right) => [8, left, right, 0],
        Shape::Choice(left, right) => [9, left, right, 0],
        Shape::Opt(child) => [10, child, 0, 0],
        Shape::Rep(child) => [11, child, 0, 0],
        Shape::RepOnce(child) => [12, child, 0, 0],
        Shape::RepExact(child, n) => [13, child, n, 0],
        Shape::RepMin(child, n) => [14, child, n, 0],
        Shape::RepMax(child, n) => [15, child, n, 0],
        Shape::RepMinMax(child, n, m) => [16, child, n, m],
        Shape::Push(child) => [17, child, 0, 0],
        Shape::PushLiteral((offset, length)) => [18, offset, length, 0],
        Shape::NodeTag(child, (offset, length)) => [19, child, offset, length],
    }
}

/// The node of a record. Those of a grammar were made by the reader or by [`packed`], so they are good ones.
fn unpacked(record: &[u32]) -> Shape<Part, u32> {
    let (kind, p, q, r) = (record[0], record[3], record[4], record[5]);
    let character = |n| char::from_u32(n).expect("a range's ends are characters");
    match kind {
        1 => Shape::Str((p, q)),
        2 => Shape::Insens((p, q)),
        3 => Shape::Range(character(p), character(q)),
        4 => Shape::Ident((p, q)),
        5 => Shape::PeekSlice(p as i32, (q == 1).then_some(r as i32)),
        6 => Shape::PosPred(p),
        7 => Shape::NegPred(p),
        8 => Shape::Seq(p, q),
        9 => Shape::Choice(p, q),
        10 => Shape::Opt(p),
        11 => Shape::Rep(p),
        12 => Shape::RepOnce(p),
        13 => Shape::RepExact(p, q),
        14 => Shape::RepMin(p, q),
        15 => Shape::RepMax(p, q),
        16 => Shape::RepMinMax(p, q, r),
        17 => Shape::Push(p),
        18 => Shape::PushLiteral((p, q)),
        19 => Shape::NodeTag(p, (q, r)),
        _ => unreachable!("kinds are 1 to 19"),
    }
}

fn rule_type(mark: u32) -> RuleType {
    match mark {
        0 => RuleType::Normal,
        1 => RuleType::Silent,
        2 => RuleType::Atomic,
        3 => RuleType::CompoundAtomic,
        4 => RuleType::NonAtomic,
        _ => unreachable!("marks are 0 to 4"),
    }
}

fn span(start: u32, end: u32) -> Span {
    Span { start: start as usize, end: end as usize }
}

/// A count as a table has it.
fn narrow(n: usize) -> u32 {
    n.try_into().expect("a grammar's tables number with 32 bits")
}

//! Trees under the names that pest_meta's `ast` has.

use std::fmt;
use std::hash::{Hash, Hasher};
use std::iter::FusedIterator;

use crate::grammar::{printer_of, Printer};
use crate::picture::{self, Opened, Under};
use crate::shape::{fold, shapes, step_down, Shape};
use crate::{Grammar, Refusal};

/// A rule: `name = mark{ expr }`. The type is pest's.
///
/// As text ([`Display`](fmt::Display)) it is what the printer writes, without the line's end, by `{:#}` with the fewest
/// brackets; or if that refuses the rule, what [`Grammar`] shows then. `{:#?}` draws it, a line to each node.
///
/// ```
/// use flascjuvan::{Expr, Rule, RuleType};
///
/// let digit = Expr::RepExact(Box::new(Expr::Ident("digit".into())), 3);
/// let rule = Rule { name: "size".into(), ty: RuleType::Atomic, expr: digit };
/// assert_eq!(rule.to_string(), "size = @{ digit{3} }");
/// assert_eq!(format!("{rule:#?}"), "size @\n└─ RepExact 3\n   └─ Ident digit");
/// ```
#[derive(Clone, Eq, Hash, PartialEq)]
pub struct Rule {
    /// Its name.
    pub name: String,
    /// Its mark.
    pub ty: RuleType,
    /// Its body.
    pub expr: Expr,
}

/// A rule's mark. The type is pest's.
#[derive(Clone, Copy, Debug, Eq, Hash, PartialEq)]
pub enum RuleType {
    /// no mark
    Normal,
    /// `_`
    Silent,
    /// `@`
    Atomic,
    /// `$`
    CompoundAtomic,
    /// `!`
    NonAtomic,
}

impl RuleType {
    /// The mark as it is written, empty where there is none.
    pub fn mark(self) -> &'static str {
        match self {
            RuleType::Normal => "",
            RuleType::Silent => "_",
            RuleType::Atomic => "@",
            RuleType::CompoundAtomic => "$",
            RuleType::NonAtomic => "!",
        }
    }
}

/// An expression. The type is pest's, but for two things: a range holds characters and not strings, and there is no
/// `Skip`, which no text spells.
///
/// As text ([`Display`](fmt::Display)) it is what the printer writes, by `{:#}` with the fewest brackets; or if that
/// refuses it, what [`Grammar`] shows then. `{:?}` names every node, and writes strings as the grammar does; `{:#?}`
/// draws the tree, a line to each node.
///
/// Nothing here goes down a tree by calling itself, so the depth of a tree takes no stack. What Rust does to drop one
/// does: 115 bytes for each level were seen in a debug build on 64-bit ARM, so 460 KB for
/// [`MAX_NODES`](crate::MAX_NODES) inside one another, the deepest that can be read or printed. There is no `Drop`
/// against it, which would forbid to move out of a node by a pattern.
///
/// ```
/// use flascjuvan::{Expr, Grammar};
///
/// let grammar: Grammar = "r = { a ~ (\"x\" | b)* }".parse()?;
/// let expr = grammar.rules().remove(0).expr;
/// assert_eq!(expr.to_string(), r#"(a ~ ("x" | b)*)"#);
/// assert_eq!(format!("{expr:#}"), r#"a ~ ("x" | b)*"#);
/// assert_eq!(format!("{expr:?}"), r#"Seq(Ident("a"), Rep(Choice(Str("x"), Ident("b"))))"#);
/// // what a node is made of can be moved out of it, as of any enum
/// let first = match expr {
///     Expr::Seq(left, _) => *left,
///     other => other,
/// };
/// assert_eq!(first, Expr::Ident("a".into()));
/// # Ok::<(), flascjuvan::Refusal>(())
/// ```
pub enum Expr {
    /// `"a"`
    Str(String),
    /// `^"a"`
    Insens(String),
    /// `'a'..'z'`
    Range(char, char),
    /// `a`
    Ident(String),
    /// `PEEK[1..]`, `PEEK[1..2]`
    PeekSlice(i32, Option<i32>),
    /// `&a`
    PosPred(Box<Expr>),
    /// `!a`
    NegPred(Box<Expr>),
    /// `a ~ b`
    Seq(Box<Expr>, Box<Expr>),
    /// `a | b`
    Choice(Box<Expr>, Box<Expr>),
    /// `a?`
    Opt(Box<Expr>),
    /// `a*`
    Rep(Box<Expr>),
    /// `a+`
    RepOnce(Box<Expr>),
    /// `a{2}`
    RepExact(Box<Expr>, u32),
    /// `a{2,}`
    RepMin(Box<Expr>, u32),
    /// `a{,2}`
    RepMax(Box<Expr>, u32),
    /// `a{2, 3}`
    RepMinMax(Box<Expr>, u32, u32),
    /// `PUSH(a)`
    Push(Box<Expr>),
    /// `PUSH_LITERAL("a")`
    PushLiteral(String),
    /// `#tag = a`
    NodeTag(Box<Expr>, String),
}

shapes!(Expr over Expr);

impl Expr {
    /// The expression and all below it, each before its children, left before right.
    ///
    /// Unlike pest's it lends the nodes and clones none.
    ///
    /// ```
    /// use flascjuvan::{Expr, Grammar};
    ///
    /// let grammar: Grammar = "r = { a ~ !(b | a)* }".parse()?;
    /// let expr = grammar.rules().remove(0).expr;
    /// let names: Vec<_> = expr
    ///     .iter_top_down()
    ///     .filter_map(|node| match node {
    ///         Expr::Ident(name) => Some(name.as_str()),
    ///         _ => None,
    ///     })
    ///     .collect();
    /// assert_eq!(names, ["a", "b", "a"]);
    /// # Ok::<(), flascjuvan::Refusal>(())
    /// ```
    pub fn iter_top_down(&self) -> ExprTopDownIterator<'_> {
        ExprTopDownIterator { left: vec![self] }
    }

    /// Applies `f` to the expression, then to the children of what it gave, and so on down, left before right.
    ///
    /// ```
    /// use flascjuvan::{Expr, Grammar};
    ///
    /// let grammar: Grammar = "r = { a ~ (\"x\" ~ b)* }".parse()?;
    /// let expr = grammar.rules().remove(0).expr;
    /// let either = expr.map_top_down(|node| match node {
    ///     Expr::Seq(left, right) => Expr::Choice(left, right),
    ///     other => other,
    /// });
    /// assert_eq!(either.to_string(), r#"(a | ("x" | b)*)"#);
    /// # Ok::<(), flascjuvan::Refusal>(())
    /// ```
    pub fn map_top_down<F>(self, mut f: F) -> Expr
    where
        F: FnMut(Expr) -> Expr,
    {
        fold(self, |expr| ((), f(expr).into_shape()), |(), shape| Expr::of(shape))
    }

    /// Applies `f` to all below the expression, then to the expression, left before right.
    ///
    /// ```
    /// use flascjuvan::{Expr, Grammar};
    ///
    /// let grammar: Grammar = "r = { #t = a ~ (#u = b)* }".parse()?;
    /// let expr = grammar.rules().remove(0).expr;
    /// let untagged = expr.map_bottom_up(|node| match node {
    ///     Expr::NodeTag(inner, _) => *inner,
    ///     other => other,
    /// });
    /// assert_eq!(untagged.to_string(), "(a ~ b*)");
    /// # Ok::<(), flascjuvan::Refusal>(())
    /// ```
    pub fn map_bottom_up<F>(self, mut f: F) -> Expr
    where
        F: FnMut(Expr) -> Expr,
    {
        fold(self, |expr| ((), expr.into_shape()), |(), shape| f(Expr::of(shape)))
    }
}

/// The walk of [`Expr::iter_top_down`].
#[derive(Clone, Debug)]
pub struct ExprTopDownIterator<'a> {
    /// what is left, the next one last
    left: Vec<&'a Expr>,
}

impl<'a> Iterator for ExprTopDownIterator<'a> {
    type Item = &'a Expr;

    fn next(&mut self) -> Option<&'a Expr> {
        step_down(&mut self.left, Expr::shape)
    }
}

impl FusedIterator for ExprTopDownIterator<'_> {}

impl Clone for Expr {
    fn clone(&self) -> Expr {
        fold(self, |expr| ((), expr.shape()), |(), shape| Expr::of(shape))
    }
}

/// The nodes without their children, each before its children. Such a row is that of one tree only, since a node's name
/// says how many children it has; so trees are compared and hashed by it.
fn heads(expr: &Expr) -> impl Iterator<Item = Shape<&str, ()>> {
    expr.iter_top_down().map(|node| node.shape().head())
}

impl PartialEq for Expr {
    fn eq(&self, other: &Expr) -> bool {
        heads(self).eq(heads(other))
    }
}

impl Eq for Expr {}

impl Hash for Expr {
    fn hash<H: Hasher>(&self, state: &mut H) {
        heads(self).for_each(|head| head.hash(state));
    }
}

/// What a printer writes for an expression: it prints rules, so a rule is made and what stands around is cut off.
pub(crate) fn printed_by(printer: Printer, expr: &Expr) -> Result<String, Refusal> {
    let line = printer(&Grammar::of_body(expr))?;
    Ok(line["r = { ".len()..line.len() - " }\n".len()].to_owned())
}

impl fmt::Display for Expr {
    fn fmt(&self, f: &mut fmt::Formatter<'_>) -> fmt::Result {
        f.pad(&printed_by(printer_of(f), self).unwrap_or_else(picture::refused))
    }
}

impl fmt::Display for Rule {
    fn fmt(&self, f: &mut fmt::Formatter<'_>) -> fmt::Result {
        let shown = printer_of(f)(&Grammar::from(std::slice::from_ref(self))).unwrap_or_else(picture::refused);
        f.pad(shown.trim_end_matches('\n'))
    }
}

impl fmt::Debug for Expr {
    fn fmt(&self, f: &mut fmt::Formatter<'_>) -> fmt::Result {
        if f.alternate() {
            picture::draw(f, opened(self), Under::Nothing, opened)
        } else {
            picture::name(f, opened(self), opened)
        }
    }
}

impl fmt::Debug for Rule {
    fn fmt(&self, f: &mut fmt::Formatter<'_>) -> fmt::Result {
        let Rule { name, ty, expr } = self;
        if f.alternate() {
            picture::rule_line(f, name, *ty)?;
            return picture::draw(f, opened(expr), Under::Line, opened);
        }
        f.debug_struct("Rule").field("name", name).field("ty", ty).field("expr", expr).finish()
    }
}

/// A node to show, with nothing behind it.
fn opened(expr: &Expr) -> Opened<'_, &Expr, &'static str> {
    (expr.shape(), "")
}

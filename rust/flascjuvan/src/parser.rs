//! Trees with spans, under the names that pest_meta's `parser` has.

use std::fmt;
use std::hash::{Hash, Hasher};
use std::iter::FusedIterator;

use crate::picture::{self, Opened, Under};
use crate::shape::{fold, shapes, step_down, Shape};
use crate::{line_column, Expr, LineColumn, Rule, RuleType};

/// The bytes of a text from `start` to `end`. As text: `6..7`.
///
/// Unlike pest's it holds no text; what asks for one takes that which was read.
#[derive(Clone, Copy, Default, Eq, Hash, PartialEq)]
pub struct Span {
    /// The first byte.
    pub start: usize,
    /// The byte after the last.
    pub end: usize,
}

impl Span {
    /// What the text has there; None if it has no such part.
    pub fn as_str<'t>(&self, text: &'t str) -> Option<&'t str> {
        text.get(self.start..self.end)
    }

    /// The line and column of its start.
    pub fn line_column(&self, text: impl AsRef<[u8]>) -> LineColumn {
        line_column(text, self.start)
    }
}

impl fmt::Display for Span {
    fn fmt(&self, f: &mut fmt::Formatter<'_>) -> fmt::Result {
        write!(f, "{}..{}", self.start, self.end)
    }
}

impl fmt::Debug for Span {
    fn fmt(&self, f: &mut fmt::Formatter<'_>) -> fmt::Result {
        fmt::Display::fmt(self, f)
    }
}

/// A rule with spans. The type is pest's.
///
/// Two are equal if their spans are too; a [`Rule`] made of it has none. The spans of a grammar that was made of rules
/// are all `0..0`.
///
/// ```
/// use flascjuvan::{Grammar, ParserExpr, Rule};
///
/// let text = "a = { b }\nc = { d ~ e* }";
/// let grammar: Grammar = text.parse()?;
/// let rule = grammar.parser_rules().remove(1);
/// assert_eq!(rule.span.as_str(text), Some("c"));
/// if let ParserExpr::Seq(_, right) = &rule.node.expr {
///     assert_eq!(right.span.as_str(text), Some("e*"));
///     assert_eq!(right.span.line_column(text).to_string(), "2:11");
///     assert_eq!(format!("{right:?}"), r#"Rep(Ident("e") 20..21) 20..22"#);
/// }
/// assert_eq!(Rule::from(rule), grammar.rules()[1]);
/// # Ok::<(), flascjuvan::Refusal>(())
/// ```
#[derive(Clone, Eq, Hash, PartialEq)]
pub struct ParserRule {
    /// Its name.
    pub name: String,
    /// The bytes of its name.
    pub span: Span,
    /// Its mark.
    pub ty: RuleType,
    /// Its body.
    pub node: ParserNode,
}

/// An expression with its span. The type is pest's.
///
/// Its depth takes no stack but where it is dropped, as with [`Expr`]; that takes 147 bytes for each level in a debug
/// build.
pub struct ParserNode {
    /// What it is.
    pub expr: ParserExpr,
    /// The bytes that it spans.
    pub span: Span,
}

/// What a [`ParserNode`] is. The type is pest's, but that a range holds characters and not strings.
#[derive(Clone, Eq, Hash, PartialEq)]
pub enum ParserExpr {
    /// `"a"`
    Str(String),
    /// `^"a"`
    Insens(String),
    /// `'a'..'z'`
    Range(char, char),
    /// `a`
    Ident(String),
    /// `PEEK[1..]`, `PEEK[1..2]`
    PeekSlice(i32, Option<i32>),
    /// `&a`
    PosPred(Box<ParserNode>),
    /// `!a`
    NegPred(Box<ParserNode>),
    /// `a ~ b`
    Seq(Box<ParserNode>, Box<ParserNode>),
    /// `a | b`
    Choice(Box<ParserNode>, Box<ParserNode>),
    /// `a?`
    Opt(Box<ParserNode>),
    /// `a*`
    Rep(Box<ParserNode>),
    /// `a+`
    RepOnce(Box<ParserNode>),
    /// `a{2}`
    RepExact(Box<ParserNode>, u32),
    /// `a{2,}`
    RepMin(Box<ParserNode>, u32),
    /// `a{,2}`
    RepMax(Box<ParserNode>, u32),
    /// `a{2, 3}`
    RepMinMax(Box<ParserNode>, u32, u32),
    /// `PUSH(a)`
    Push(Box<ParserNode>),
    /// `PUSH_LITERAL("a")`
    PushLiteral(String),
    /// `#tag = a`
    NodeTag(Box<ParserNode>, String),
}

shapes!(ParserExpr over ParserNode);

impl ParserNode {
    /// The node and all below it, each before its children, left before right.
    ///
    /// ```
    /// use flascjuvan::{Grammar, ParserExpr};
    ///
    /// let text = "r = { a ~ !(b | a)* }";
    /// let grammar: Grammar = text.parse()?;
    /// let rule = grammar.parser_rules().remove(0);
    /// let places: Vec<_> = rule
    ///     .node
    ///     .iter_top_down()
    ///     .filter(|node| matches!(&node.expr, ParserExpr::Ident(name) if name == "a"))
    ///     .map(|node| node.span.start)
    ///     .collect();
    /// assert_eq!(places, [6, 16]);
    /// # Ok::<(), flascjuvan::Refusal>(())
    /// ```
    pub fn iter_top_down(&self) -> ParserNodeTopDownIterator<'_> {
        ParserNodeTopDownIterator { left: vec![self] }
    }
}

/// The walk of [`ParserNode::iter_top_down`].
#[derive(Clone, Debug)]
pub struct ParserNodeTopDownIterator<'a> {
    /// what is left, the next one last
    left: Vec<&'a ParserNode>,
}

impl<'a> Iterator for ParserNodeTopDownIterator<'a> {
    type Item = &'a ParserNode;

    fn next(&mut self) -> Option<&'a ParserNode> {
        step_down(&mut self.left, |node| node.expr.shape())
    }
}

impl FusedIterator for ParserNodeTopDownIterator<'_> {}

impl From<ParserNode> for Expr {
    fn from(node: ParserNode) -> Expr {
        fold(node, |node| ((), node.expr.into_shape()), |(), shape| Expr::of(shape))
    }
}

impl From<ParserRule> for Rule {
    fn from(rule: ParserRule) -> Rule {
        Rule { name: rule.name, ty: rule.ty, expr: rule.node.into() }
    }
}

impl Clone for ParserNode {
    fn clone(&self) -> ParserNode {
        let close = |span, shape| ParserNode { expr: ParserExpr::of(shape), span };
        fold(self, |node| (node.span, node.expr.shape()), close)
    }
}

/// The nodes without their children, each before its children, with their spans.
fn heads(node: &ParserNode) -> impl Iterator<Item = (Span, Shape<&str, ()>)> {
    node.iter_top_down().map(|node| (node.span, node.expr.shape().head()))
}

impl PartialEq for ParserNode {
    fn eq(&self, other: &ParserNode) -> bool {
        heads(self).eq(heads(other))
    }
}

impl Eq for ParserNode {}

impl Hash for ParserNode {
    fn hash<H: Hasher>(&self, state: &mut H) {
        heads(self).for_each(|head| head.hash(state));
    }
}

impl fmt::Debug for ParserRule {
    fn fmt(&self, f: &mut fmt::Formatter<'_>) -> fmt::Result {
        let ParserRule { name, span, ty, node } = self;
        if f.alternate() {
            picture::rule_line(f, name, *ty)?;
            write!(f, "  {span}")?;
            return picture::draw(f, drawn(node), Under::Line, drawn);
        }
        f.debug_struct("ParserRule")
            .field("name", name)
            .field("span", span)
            .field("ty", ty)
            .field("node", node)
            .finish()
    }
}

impl fmt::Debug for ParserNode {
    fn fmt(&self, f: &mut fmt::Formatter<'_>) -> fmt::Result {
        if f.alternate() {
            picture::draw(f, drawn(self), Under::Nothing, drawn)
        } else {
            picture::name(f, named(self), named)
        }
    }
}

impl fmt::Debug for ParserExpr {
    fn fmt(&self, f: &mut fmt::Formatter<'_>) -> fmt::Result {
        let root = (self.shape(), Behind::Nothing);
        if f.alternate() {
            picture::draw(f, root, Under::Nothing, drawn)
        } else {
            picture::name(f, root, named)
        }
    }
}

/// The span behind a node, after as many blanks as pictures and lines have.
enum Behind {
    Span(&'static str, Span),
    Nothing,
}

impl fmt::Display for Behind {
    fn fmt(&self, f: &mut fmt::Formatter<'_>) -> fmt::Result {
        match self {
            Behind::Span(blanks, span) => write!(f, "{blanks}{span}"),
            Behind::Nothing => Ok(()),
        }
    }
}

fn drawn(node: &ParserNode) -> Opened<'_, &ParserNode, Behind> {
    (node.expr.shape(), Behind::Span("  ", node.span))
}

fn named(node: &ParserNode) -> Opened<'_, &ParserNode, Behind> {
    (node.expr.shape(), Behind::Span(" ", node.span))
}

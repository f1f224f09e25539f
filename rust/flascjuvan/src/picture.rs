//! Grammars and trees for people to look at: pictures, and names of nodes on one line.

use std::fmt::{self, Display, Formatter};

use crate::literal;
use crate::place::line_columns;
use crate::shape::Shape;
use crate::{Grammar, LineColumn, Refusal, RuleType, Span};

/// A grammar as a picture, to be shown by [`Display`]: what belongs to what, the bytes of the text that each node spans,
/// and the line in which it starts; or with its text, line and column of each start.
///
/// Each rule and each node has a line, and children are set in below what they belong to. Strings stand as the grammar
/// writes them. A name that isn't spelled like a word stands as a string; only trees that were made by hand have those.
///
/// It comes from [`Grammar::picture`] and [`Grammar::picture_of`].
#[derive(Clone, Copy, Debug)]
pub struct Picture<'a> {
    pub(crate) grammar: &'a Grammar,
    pub(crate) text: Option<&'a [u8]>,
}

impl Display for Picture<'_> {
    fn fmt(&self, f: &mut Formatter<'_>) -> fmt::Result {
        let lines = self.text.map(line_columns);
        let place = |span, line| Place { span, line, lines: lines.as_deref() };
        for rule in self.grammar.rule_rows() {
            rule_line(f, rule.name, rule.ty)?;
            write!(f, "{}", place(rule.span, None))?;
            let open = |index| (self.grammar.shape(index), place(self.grammar.span(index), self.grammar.line(index)));
            draw(f, open(rule.root), Under::Line, open)?;
            writeln!(f)?;
        }
        Ok(())
    }
}

/// A span behind a name, and of its start the line and column where the text is known, or else the line where the record
/// has it.
struct Place<'a> {
    span: Span,
    line: Option<usize>,
    lines: Option<&'a [LineColumn]>,
}

impl Display for Place<'_> {
    fn fmt(&self, f: &mut Formatter<'_>) -> fmt::Result {
        write!(f, "  {}", self.span)?;
        match (self.lines, self.line) {
            // a place past the text's end counts as the end, as it does for `line_column`
            (Some(lines), _) => write!(f, "  {}", lines[self.span.start.min(lines.len() - 1)]),
            (None, Some(line)) => write!(f, "  line {line}"),
            (None, None) => Ok(()),
        }
    }
}

/// A rule's line, but for its span and its end.
pub(crate) fn rule_line(f: &mut Formatter<'_>, name: &str, ty: RuleType) -> fmt::Result {
    write!(f, "{}", word(name))?;
    match ty {
        RuleType::Normal => Ok(()),
        _ => write!(f, " {}", ty.mark()),
    }
}

/// What stands above a drawn tree.
#[derive(Clone, Copy)]
pub(crate) enum Under {
    Nothing,
    /// a line that has not been ended, whose only child the tree is
    Line,
}

/// A node that was opened for showing: its shape, and what stands behind it.
pub(crate) type Opened<'a, T, B> = (Shape<&'a str, T>, B);

/// The branch to a child, and what runs past the lines below it.
type Branch = (&'static str, &'static str);
const NO_BRANCH: Branch = ("", "");
const LAST: Branch = ("└─ ", "   ");
const NOT_LAST: Branch = ("├─ ", "│  ");

/// Draws a tree, a line to each node. The last line has no end.
pub(crate) fn draw<'a, T, B: Display>(
    f: &mut Formatter<'_>,
    root: Opened<'a, T, B>,
    under: Under,
    open: impl Fn(T) -> Opened<'a, T, B>,
) -> fmt::Result {
    let (mut line_end, branch) = match under {
        Under::Nothing => ("", NO_BRANCH),
        Under::Line => ("\n", LAST),
    };
    // what is still to draw, the next one last: a node, what runs past it, its branch
    let mut left = vec![(root, String::new(), branch)];
    while let Some(((shape, behind), past, (branch, below))) = left.pop() {
        let (head, children) = shape.parted();
        write!(f, "{line_end}{past}{branch}{}{behind}", label(head))?;
        line_end = "\n";
        let past = past + below;
        match children {
            [Some(a), Some(b)] => {
                left.push((open(b), past.clone(), LAST));
                left.push((open(a), past, NOT_LAST));
            }
            [Some(a), None] => left.push((open(a), past, LAST)),
            [None, _] => {}
        }
    }
    Ok(())
}

/// A node's name in a picture, with what it holds.
pub(crate) fn label(head: Shape<&str, ()>) -> String {
    let name = head.name();
    match head {
        Shape::Str(s) | Shape::Insens(s) | Shape::PushLiteral(s) => format!("{name} {}", literal::string(s)),
        Shape::Range(a, b) => format!("{name} {}..{}", literal::character(a), literal::character(b)),
        Shape::Ident(s) => format!("{name} {}", word(s)),
        Shape::PeekSlice(a, None) => format!("{name} {a}.."),
        Shape::PeekSlice(a, Some(b)) => format!("{name} {a}..{b}"),
        Shape::RepExact(_, n) | Shape::RepMin(_, n) | Shape::RepMax(_, n) => format!("{name} {n}"),
        Shape::RepMinMax(_, n, m) => format!("{name} {n} {m}"),
        Shape::NodeTag(_, tag) => format!("{name} #{}", word(tag)),
        Shape::PosPred(_) | Shape::NegPred(_) | Shape::Seq(..) | Shape::Choice(..) => name.to_owned(),
        Shape::Opt(_) | Shape::Rep(_) | Shape::RepOnce(_) | Shape::Push(_) => name.to_owned(),
    }
}

/// A word as it is, anything else as a string: so that it can't be taken for what it isn't, nor break a line.
pub(crate) fn word(name: &str) -> String {
    let is_spelled = name.bytes().all(|b| b.is_ascii_alphanumeric() || b == b'_');
    if is_spelled && !name.is_empty() && !name.starts_with(|c: char| c.is_ascii_digit()) {
        name.to_owned()
    } else {
        literal::string(name)
    }
}

/// Names every node of a tree on one line, as Rust would show the enum.
pub(crate) fn name<'a, T, B: Display>(
    f: &mut Formatter<'_>,
    root: Opened<'a, T, B>,
    open: impl Fn(T) -> Opened<'a, T, B>,
) -> fmt::Result {
    /// What is still to write, the next one last.
    enum Step<'a, T, B> {
        Node(Opened<'a, T, B>),
        Comma,
        Rest(Shape<&'a str, ()>, B),
    }
    let mut steps = vec![Step::Node(root)];
    while let Some(step) = steps.pop() {
        match step {
            Step::Node((shape, behind)) => {
                let (head, [left, right]) = shape.parted();
                write!(f, "{}(", head.name())?;
                steps.push(Step::Rest(head, behind));
                if let Some(right) = right {
                    steps.push(Step::Node(open(right)));
                    steps.push(Step::Comma);
                }
                steps.extend(left.map(|left| Step::Node(open(left))));
            }
            Step::Comma => f.write_str(", ")?,
            Step::Rest(head, behind) => {
                rest(f, head)?;
                write!(f, "){behind}")?;
            }
        }
    }
    Ok(())
}

/// What a node holds beside its children.
fn rest(f: &mut Formatter<'_>, head: Shape<&str, ()>) -> fmt::Result {
    match head {
        Shape::Str(s) | Shape::Insens(s) | Shape::Ident(s) | Shape::PushLiteral(s) => f.write_str(&literal::string(s)),
        Shape::Range(a, b) => write!(f, "{}, {}", literal::character(a), literal::character(b)),
        Shape::PeekSlice(a, None) => write!(f, "{a}, None"),
        Shape::PeekSlice(a, Some(b)) => write!(f, "{a}, Some({b})"),
        Shape::RepExact(_, n) | Shape::RepMin(_, n) | Shape::RepMax(_, n) => write!(f, ", {n}"),
        Shape::RepMinMax(_, n, m) => write!(f, ", {n}, {m}"),
        Shape::NodeTag(_, tag) => write!(f, ", {}", literal::string(tag)),
        Shape::PosPred(_) | Shape::NegPred(_) | Shape::Seq(..) | Shape::Choice(..) => Ok(()),
        Shape::Opt(_) | Shape::Rep(_) | Shape::RepOnce(_) | Shape::Push(_) => Ok(()),
    }
}

/// What is shown for that which can't be printed. No token begins with `<`, so no reader takes it for a rule.
pub(crate) fn refused(refusal: Refusal) -> String {
    format!("<{refusal}: {}>", refusal.meaning())
}

//! One form of tree for all answers, and its tables.

/// The Rust's `ParserExpr`, without features.
#[derive(Clone, Debug, PartialEq, Eq)]
pub enum Expr {
    Str(String),
    Insens(String),
    Range(String, String),
    Ident(String),
    PeekSlice(i32, Option<i32>),
    PosPred(Box<Node>),
    NegPred(Box<Node>),
    Seq(Box<Node>, Box<Node>),
    Choice(Box<Node>, Box<Node>),
    Opt(Box<Node>),
    Rep(Box<Node>),
    RepOnce(Box<Node>),
    RepExact(Box<Node>, u32),
    RepMin(Box<Node>, u32),
    RepMax(Box<Node>, u32),
    RepMinMax(Box<Node>, u32, u32),
    Push(Box<Node>),
    PushLiteral(String),
    NodeTag(Box<Node>, String),
}

#[derive(Clone, Debug, PartialEq, Eq)]
pub struct Node {
    pub expr: Expr,
    pub start: usize,
    pub end: usize,
    /// Of the start, counted from 1; 0 where there are no spans.
    pub line: usize,
}

/// A rule; `mark` is numbered 0 to 4.
#[derive(Clone, Debug, PartialEq, Eq)]
pub struct Rule {
    pub name: String,
    pub mark: u32,
    pub start: usize,
    pub end: usize,
    pub node: Node,
}

/// The numbers in a node's record.
pub const NODE_RECORD: usize = 7;
/// The numbers in a rule's record.
pub const RULE_RECORD: usize = 6;

/// Records, and the bytes of names, tags and strings in text order.
#[derive(Clone, Debug, Default, PartialEq, Eq)]
pub struct Tables {
    pub nodes: Vec<u32>,
    pub rules: Vec<u32>,
    pub store: Vec<u8>,
}

impl Tables {
    pub fn of(rules: &[Rule]) -> Tables {
        let mut tables = Tables::default();
        for rule in rules {
            let (offset, length) = tables.keep(&rule.name);
            let root = tables.node(&rule.node);
            tables.rules.extend([offset, length, rule.mark, root]);
            tables.rules.extend([rule.start as u32, rule.end as u32]);
        }
        tables
    }

    fn keep(&mut self, text: &str) -> (u32, u32) {
        let offset = self.store.len() as u32;
        self.store.extend(text.as_bytes());
        (offset, text.len() as u32)
    }

    /// Children first, then the node; its index is the answer. A tag's text comes before
    /// what its child keeps.
    fn node(&mut self, node: &Node) -> u32 {
        let one = |text: &str| text.chars().next().unwrap() as u32;
        let (kind, p, q, r) = match &node.expr {
            Expr::Str(s) => self.text(1, s),
            Expr::Insens(s) => self.text(2, s),
            Expr::Range(first, last) => (3, one(first), one(last), 0),
            Expr::Ident(s) => self.text(4, s),
            Expr::PeekSlice(start, None) => (5, *start as u32, 0, 0),
            Expr::PeekSlice(start, Some(end)) => (5, *start as u32, 1, *end as u32),
            Expr::PosPred(e) => (6, self.node(e), 0, 0),
            Expr::NegPred(e) => (7, self.node(e), 0, 0),
            Expr::Seq(l, r) => (8, self.node(l), self.node(r), 0),
            Expr::Choice(l, r) => (9, self.node(l), self.node(r), 0),
            Expr::Opt(e) => (10, self.node(e), 0, 0),
            Expr::Rep(e) => (11, self.node(e), 0, 0),
            Expr::RepOnce(e) => (12, self.node(e), 0, 0),
            Expr::RepExact(e, n) => (13, self.node(e), *n, 0),
            Expr::RepMin(e, n) => (14, self.node(e), *n, 0),
            Expr::RepMax(e, n) => (15, self.node(e), *n, 0),
            Expr::RepMinMax(e, n, m) => (16, self.node(e), *n, *m),
            Expr::Push(e) => (17, self.node(e), 0, 0),
            Expr::PushLiteral(s) => self.text(18, s),
            Expr::NodeTag(e, tag) => {
                let (offset, length) = self.keep(tag);
                (19, self.node(e), offset, length)
            }
        };
        let span = [node.start as u32, node.end as u32];
        self.nodes.extend([kind, span[0], span[1], p, q, r, node.line as u32]);
        (self.nodes.len() / NODE_RECORD - 1) as u32
    }

    fn text(&mut self, kind: u32, text: &str) -> (u32, u32, u32, u32) {
        let (offset, length) = self.keep(text);
        (kind, offset, length, 0)
    }

    /// All spans and lines 0, to hold beside an answer that has none.
    pub fn without_spans(mut self) -> Tables {
        for node in self.nodes.chunks_exact_mut(NODE_RECORD) {
            node[1] = 0;
            node[2] = 0;
            node[6] = 0;
        }
        for rule in self.rules.chunks_exact_mut(RULE_RECORD) {
            rule[4] = 0;
            rule[5] = 0;
        }
        self
    }
}

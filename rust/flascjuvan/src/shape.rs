//! What a node holds, whatever its texts and children are named by: one form between records and the two kinds of
//! trees. Every walk stands here once, and none goes down a tree by calling itself.

/// A node over texts `S` and children `C`.
#[derive(Clone, Copy, Debug, Eq, Hash, PartialEq)]
pub(crate) enum Shape<S, C> {
    Str(S),
    Insens(S),
    Range(char, char),
    Ident(S),
    PeekSlice(i32, Option<i32>),
    PosPred(C),
    NegPred(C),
    Seq(C, C),
    Choice(C, C),
    Opt(C),
    Rep(C),
    RepOnce(C),
    RepExact(C, u32),
    RepMin(C, u32),
    RepMax(C, u32),
    RepMinMax(C, u32, u32),
    Push(C),
    PushLiteral(S),
    NodeTag(C, S),
}

impl<S, C> Shape<S, C> {
    /// The same node over other texts and children. A left child is asked for before a right one.
    pub(crate) fn map<T, D>(self, mut text: impl FnMut(S) -> T, mut child: impl FnMut(C) -> D) -> Shape<T, D> {
        match self {
            Shape::Str(s) => Shape::Str(text(s)),
            Shape::Insens(s) => Shape::Insens(text(s)),
            Shape::Range(a, b) => Shape::Range(a, b),
            Shape::Ident(s) => Shape::Ident(text(s)),
            Shape::PeekSlice(a, b) => Shape::PeekSlice(a, b),
            Shape::PosPred(a) => Shape::PosPred(child(a)),
            Shape::NegPred(a) => Shape::NegPred(child(a)),
            Shape::Seq(a, b) => {
                let left = child(a);
                Shape::Seq(left, child(b))
            }
            Shape::Choice(a, b) => {
                let left = child(a);
                Shape::Choice(left, child(b))
            }
            Shape::Opt(a) => Shape::Opt(child(a)),
            Shape::Rep(a) => Shape::Rep(child(a)),
            Shape::RepOnce(a) => Shape::RepOnce(child(a)),
            Shape::RepExact(a, n) => Shape::RepExact(child(a), n),
            Shape::RepMin(a, n) => Shape::RepMin(child(a), n),
            Shape::RepMax(a, n) => Shape::RepMax(child(a), n),
            Shape::RepMinMax(a, n, m) => Shape::RepMinMax(child(a), n, m),
            Shape::Push(a) => Shape::Push(child(a)),
            Shape::PushLiteral(s) => Shape::PushLiteral(text(s)),
            Shape::NodeTag(a, s) => Shape::NodeTag(child(a), text(s)),
        }
    }

    /// The node without its children, and its children: none, one, or left and right.
    pub(crate) fn parted(self) -> (Shape<S, ()>, [Option<C>; 2]) {
        let mut children = [None, None];
        let mut free = children.iter_mut();
        let head = self.map(
            |s| s,
            |child| {
                if let Some(place) = free.next() {
                    *place = Some(child);
                }
            },
        );
        (head, children)
    }

    /// The node without its children.
    pub(crate) fn head(self) -> Shape<S, ()> {
        self.parted().0
    }

    fn child_count(&self) -> usize {
        match self {
            Shape::Str(_) | Shape::Insens(_) | Shape::Range(..) | Shape::Ident(_) => 0,
            Shape::PeekSlice(..) | Shape::PushLiteral(_) => 0,
            Shape::Seq(..) | Shape::Choice(..) => 2,
            _ => 1,
        }
    }

    /// The node over the last ones made, which are taken.
    pub(crate) fn over<D>(self, made: &mut Vec<D>) -> Shape<S, D> {
        let mut children = made.drain(made.len() - self.child_count()..);
        self.map(|s| s, |_| children.next().expect("as many as it has children"))
    }

    /// Its name, as the enums of trees have it.
    pub(crate) fn name(&self) -> &'static str {
        match self {
            Shape::Str(_) => "Str",
            Shape::Insens(_) => "Insens",
            Shape::Range(..) => "Range",
            Shape::Ident(_) => "Ident",
            Shape::PeekSlice(..) => "PeekSlice",
            Shape::PosPred(_) => "PosPred",
            Shape::NegPred(_) => "NegPred",
            Shape::Seq(..) => "Seq",
            Shape::Choice(..) => "Choice",
            Shape::Opt(_) => "Opt",
            Shape::Rep(_) => "Rep",
            Shape::RepOnce(_) => "RepOnce",
            Shape::RepExact(..) => "RepExact",
            Shape::RepMin(..) => "RepMin",
            Shape::RepMax(..) => "RepMax",
            Shape::RepMinMax(..) => "RepMinMax",
            Shape::Push(_) => "Push",
            Shape::PushLiteral(_) => "PushLiteral",
            Shape::NodeTag(..) => "NodeTag",
        }
    }
}

/// Makes something of a tree. `open` takes each node apart before its children, left before right, into what is kept
/// of it and its shape; `close` puts it together again when its children are made.
pub(crate) fn fold<T, K, S, R>(
    root: T,
    mut open: impl FnMut(T) -> (K, Shape<S, T>),
    mut close: impl FnMut(K, Shape<S, R>) -> R,
) -> R {
    enum Step<T, K, S> {
        Open(T),
        Close(K, Shape<S, ()>),
    }
    let mut steps = vec![Step::Open(root)];
    let mut made = Vec::new();
    while let Some(step) = steps.pop() {
        match step {
            Step::Open(node) => {
                let (kept, shape) = open(node);
                let (head, [left, right]) = shape.parted();
                steps.push(Step::Close(kept, head));
                steps.extend(right.map(Step::Open));
                steps.extend(left.map(Step::Open));
            }
            Step::Close(kept, head) => {
                let whole = head.over(&mut made);
                made.push(close(kept, whole));
            }
        }
    }
    made.pop().expect("the root is made last")
}

/// A step of the walk that gives each node before its children, left before right: the next one of what is left, which
/// stands last there.
pub(crate) fn step_down<'a, T>(left: &mut Vec<&'a T>, shape: impl Fn(&'a T) -> Shape<&'a str, &'a T>) -> Option<&'a T> {
    let node = left.pop()?;
    let (_, [first, second]) = shape(node).parted();
    left.extend(second);
    left.extend(first);
    Some(node)
}

/// Writes the ways between an enum of trees and [`Shape`], arm by arm.
macro_rules! shapes {
    ($tree:ident over $child:ty) => {
        impl $tree {
            /// The node, lent.
            pub(crate) fn shape(&self) -> $crate::shape::Shape<&str, &$child> {
                use $crate::shape::Shape;
                match self {
                    $tree::Str(s) => Shape::Str(s),
                    $tree::Insens(s) => Shape::Insens(s),
                    $tree::Range(a, b) => Shape::Range(*a, *b),
                    $tree::Ident(s) => Shape::Ident(s),
                    $tree::PeekSlice(a, b) => Shape::PeekSlice(*a, *b),
                    $tree::PosPred(a) => Shape::PosPred(a),
                    $tree::NegPred(a) => Shape::NegPred(a),
                    $tree::Seq(a, b) => Shape::Seq(a, b),
                    $tree::Choice(a, b) => Shape::Choice(a, b),
                    $tree::Opt(a) => Shape::Opt(a),
                    $tree::Rep(a) => Shape::Rep(a),
                    $tree::RepOnce(a) => Shape::RepOnce(a),
                    $tree::RepExact(a, n) => Shape::RepExact(a, *n),
                    $tree::RepMin(a, n) => Shape::RepMin(a, *n),
                    $tree::RepMax(a, n) => Shape::RepMax(a, *n),
                    $tree::RepMinMax(a, n, m) => Shape::RepMinMax(a, *n, *m),
                    $tree::Push(a) => Shape::Push(a),
                    $tree::PushLiteral(s) => Shape::PushLiteral(s),
                    $tree::NodeTag(a, s) => Shape::NodeTag(a, s),
                }
            }

            /// The node, taken apart.
            pub(crate) fn into_shape(self) -> $crate::shape::Shape<String, $child> {
                use $crate::shape::Shape;
                match self {
                    $tree::Str(s) => Shape::Str(s),
                    $tree::Insens(s) => Shape::Insens(s),
                    $tree::Range(a, b) => Shape::Range(a, b),
                    $tree::Ident(s) => Shape::Ident(s),
                    $tree::PeekSlice(a, b) => Shape::PeekSlice(a, b),
                    $tree::PosPred(a) => Shape::PosPred(*a),
                    $tree::NegPred(a) => Shape::NegPred(*a),
                    $tree::Seq(a, b) => Shape::Seq(*a, *b),
                    $tree::Choice(a, b) => Shape::Choice(*a, *b),
                    $tree::Opt(a) => Shape::Opt(*a),
                    $tree::Rep(a) => Shape::Rep(*a),
                    $tree::RepOnce(a) => Shape::RepOnce(*a),
                    $tree::RepExact(a, n) => Shape::RepExact(*a, n),
                    $tree::RepMin(a, n) => Shape::RepMin(*a, n),
                    $tree::RepMax(a, n) => Shape::RepMax(*a, n),
                    $tree::RepMinMax(a, n, m) => Shape::RepMinMax(*a, n, m),
                    $tree::Push(a) => Shape::Push(*a),
                    $tree::PushLiteral(s) => Shape::PushLiteral(s),
                    $tree::NodeTag(a, s) => Shape::NodeTag(*a, s),
                }
            }

            /// The tree of a node.
            pub(crate) fn of<S: Into<String>>(shape: $crate::shape::Shape<S, $child>) -> $tree {
                use $crate::shape::Shape;
                match shape.map(S::into, Box::new) {
                    Shape::Str(s) => $tree::Str(s),
                    Shape::Insens(s) => $tree::Insens(s),
                    Shape::Range(a, b) => $tree::Range(a, b),
                    Shape::Ident(s) => $tree::Ident(s),
                    Shape::PeekSlice(a, b) => $tree::PeekSlice(a, b),
                    Shape::PosPred(a) => $tree::PosPred(a),
                    Shape::NegPred(a) => $tree::NegPred(a),
                    Shape::Seq(a, b) => $tree::Seq(a, b),
                    Shape::Choice(a, b) => $tree::Choice(a, b),
                    Shape::Opt(a) => $tree::Opt(a),
                    Shape::Rep(a) => $tree::Rep(a),
                    Shape::RepOnce(a) => $tree::RepOnce(a),
                    Shape::RepExact(a, n) => $tree::RepExact(a, n),
                    Shape::RepMin(a, n) => $tree::RepMin(a, n),
                    Shape::RepMax(a, n) => $tree::RepMax(a, n),
                    Shape::RepMinMax(a, n, m) => $tree::RepMinMax(a, n, m),
                    Shape::Push(a) => $tree::Push(a),
                    Shape::PushLiteral(s) => $tree::PushLiteral(s),
                    Shape::NodeTag(a, s) => $tree::NodeTag(a, s),
                }
            }
        }
    };
}

pub(crate) use shapes;

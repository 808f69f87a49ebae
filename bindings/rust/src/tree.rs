//! From tokens to nodes.

use crate::answer::answered;
use crate::mode::Mode;
use crate::names::{ExceptionId, LicenceId};
use crate::raw;
use crate::refusal::Refusal;
use crate::span::Span;
use crate::tokens::Reference;

/// How many cells the record of a node has.
const RECORD: usize = 16;
/// 64 leaves and the 63 operators that join them.
const MOST_NODES: usize = 127;

/// A node of an expression.
#[derive(Clone, Copy, Debug, PartialEq, Eq, Hash)]
pub enum Node {
    /// A licence with what belongs to it.
    Leaf(Leaf),
    /// Both sides are required.
    And,
    /// One side is required.
    Or,
}

/// A licence with its `+` and its addition.
#[derive(Clone, Copy, Debug, PartialEq, Eq, Hash)]
pub struct Leaf {
    /// The licence.
    pub licence: Licence,
    /// Whether a `+` follows it. After a GNU name it does not stand here: the name is then its "-or-later" name.
    pub plus: bool,
    /// What follows WITH.
    pub addition: Option<Addition>,
    /// Where the licence's token stands.
    pub span: Span,
}

/// The licence of a leaf.
#[derive(Clone, Copy, Debug, PartialEq, Eq, Hash)]
pub enum Licence {
    /// A listed name.
    Listed(LicenceId),
    /// A reference, or an unknown term.
    Reference(Reference),
}

/// The addition of a leaf.
#[derive(Clone, Copy, Debug, PartialEq, Eq, Hash)]
pub enum Addition {
    /// A listed exception.
    Listed(ExceptionId),
    /// A reference, or an unknown term.
    Reference(Reference),
}

/// The expression of a text: its nodes in postfix.
///
/// ```
/// use tasgilfrem::{parse, Branch, Mode};
///
/// let tree = parse(b"(MIT AND ISC) OR 0BSD", Mode::STRICT)?;
/// if let Branch::Or(left, right) = tree.root() {
///     assert!(matches!(left.branch(), Branch::And(..)));
///     assert!(matches!(right.branch(), Branch::Leaf(leaf) if leaf.span.range() == (17..21)));
/// }
/// # Ok::<(), tasgilfrem::Refusal>(())
/// ```
#[derive(Clone, Debug, PartialEq, Eq, Hash)]
pub struct Tree {
    nodes: Vec<Node>,
}

impl Tree {
    /// Its nodes in postfix: each operator stands after its two sides.
    pub fn nodes(&self) -> &[Node] {
        &self.nodes
    }

    /// Its leaves, from left to right.
    pub fn leaves(&self) -> impl Iterator<Item = &Leaf> {
        self.nodes.iter().filter_map(|node| match node {
            Node::Leaf(leaf) => Some(leaf),
            Node::And | Node::Or => None,
        })
    }

    /// What it is at the top.
    pub fn root(&self) -> Branch<'_> {
        Subtree { nodes: &self.nodes }.branch()
    }
}

/// A part of a tree that is a tree itself.
#[derive(Clone, Copy, Debug, PartialEq, Eq)]
pub struct Subtree<'t> {
    /// Never empty, since it is made only from the library's nodes; its last node is its top.
    nodes: &'t [Node],
}

/// What a tree is at its top.
#[derive(Clone, Copy, Debug, PartialEq, Eq)]
pub enum Branch<'t> {
    /// A leaf.
    Leaf(&'t Leaf),
    /// Both of two.
    And(Subtree<'t>, Subtree<'t>),
    /// One of two.
    Or(Subtree<'t>, Subtree<'t>),
}

impl<'t> Subtree<'t> {
    /// Its nodes in postfix.
    pub fn nodes(self) -> &'t [Node] {
        self.nodes
    }

    /// What it is at its top.
    pub fn branch(self) -> Branch<'t> {
        let (top, sides) = self.nodes.split_last().expect("a tree has a node");
        match top {
            Node::Leaf(leaf) => Branch::Leaf(leaf),
            Node::And => halved(sides).map_sides(Branch::And),
            Node::Or => halved(sides).map_sides(Branch::Or),
        }
    }
}

/// The two trees that stand one after the other.
struct Halves<'t>(&'t [Node], &'t [Node]);

impl<'t> Halves<'t> {
    fn map_sides(self, make: fn(Subtree<'t>, Subtree<'t>) -> Branch<'t>) -> Branch<'t> {
        make(Subtree { nodes: self.0 }, Subtree { nodes: self.1 })
    }
}

fn halved(sides: &[Node]) -> Halves<'_> {
    let (left, right) = sides.split_at(start_of_last(sides));
    Halves(left, right)
}

/// Where the last tree of these starts: going back from the end, an operator asks for one tree more and a leaf is one.
fn start_of_last(nodes: &[Node]) -> usize {
    let mut missing = 1;
    for (place, node) in nodes.iter().enumerate().rev() {
        missing = if matches!(node, Node::Leaf(_)) { missing - 1 } else { missing + 1 };
        if missing == 0 {
            return place;
        }
    }
    0
}

/// Reads an expression.
///
/// ```
/// use tasgilfrem::{parse, Licence, Mode, Refusal, Span};
///
/// let tree = parse(b"MIT", Mode::STRICT)?;
/// let leaf = tree.leaves().next().unwrap();
/// assert!(matches!(leaf.licence, Licence::Listed(id) if id.name() == "MIT"));
///
/// // Of two open parentheses the innermost is named.
/// assert_eq!(parse(b"((MIT", Mode::STRICT), Err(Refusal::UnclosedParens(Span::new(1, 2))));
/// # Ok::<(), tasgilfrem::Refusal>(())
/// ```
pub fn parse(text: &[u8], mode: Mode) -> Result<Tree, Refusal> {
    let mut cells = [0; RECORD * MOST_NODES];
    let answer = answered(raw::parse(text, mode.bits(), &mut cells), 0)?;
    let nodes = cells.chunks_exact(RECORD).take(answer.value).map(node).collect();
    Ok(Tree { nodes })
}

fn node(cells: &[u16]) -> Node {
    match cells[0] {
        1 => Node::Leaf(leaf(cells)),
        2 => Node::And,
        3 => Node::Or,
        kind => unreachable!("the library has no kind of node {}", kind),
    }
}

fn leaf(cells: &[u16]) -> Leaf {
    let span = |at: usize| Span::of_cells(cells[at], cells[at + 1]);
    let licence = match cells[1] {
        0 => Licence::Listed(LicenceId(cells[2])),
        form => Licence::Reference(Reference { document: document(form == 2, span(3)), name: span(5) }),
    };
    let addition = match cells[8] {
        0 => None,
        1 => Some(Addition::Listed(ExceptionId(cells[9]))),
        form => Some(Addition::Reference(Reference { document: document(form == 3, span(10)), name: span(12) })),
    };
    Leaf { licence, plus: cells[7] != 0, addition, span: span(14) }
}

fn document(there: bool, span: Span) -> Option<Span> {
    if there { Some(span) } else { None }
}

//! Reading what a call wrote to the answer buffer.

use crate::nodes::{DocumentNode, PatternNode};

/// A node of a shown document. The root's parent is node 0.
#[derive(Clone, Copy, Debug, PartialEq, Eq)]
pub struct ShownNode {
    /// The node above it.
    pub parent: DocumentNode,
    /// Its label.
    pub label: u16,
    /// Its figure.
    pub figure: u16,
}

/// What a verdict shows that answers "not contained": a document that conforms to the summary, and a
/// result of the first pattern in it that is one of no member of the set.
#[derive(Clone, Debug, PartialEq, Eq)]
pub struct Shown {
    /// The document's nodes, by number.
    pub document: Vec<ShownNode>,
    /// The result, by position.
    pub result: Vec<DocumentNode>,
}

impl Shown {
    /// Reads it from the front of the answer buffer; `None` where the buffer ends within it.
    pub fn read(answer: &[u8]) -> Option<Shown> {
        let mut rest = answer;
        let document = counted(&mut rest, |[parent, label, figure]| ShownNode {
            parent: DocumentNode(parent.into()),
            label,
            figure,
        })?;
        let result = nodes_shown(rest)?;
        Some(Shown { document, result })
    }
}

/// A node of a pattern that was shortened. The root's parent is node 0.
#[derive(Clone, Copy, Debug, PartialEq, Eq)]
pub struct LeftNode {
    /// The node above it, by its number in what is left.
    pub parent: PatternNode,
    /// Its label, or 0 for any.
    pub label: u16,
    /// Whether it is a descendant of its parent, and not a child.
    pub descendant: bool,
    /// The position that it holds, or 0.
    pub position: u16,
    /// The least figure that it accepts.
    pub figure: u16,
}

/// What [`crate::minimise`] writes.
#[derive(Clone, Debug, PartialEq, Eq)]
pub struct Shortened {
    /// The nodes that are left, in their old order.
    pub left: Vec<LeftNode>,
    /// The struck ones by their numbers in the case, in the order in which they were struck.
    pub struck: Vec<PatternNode>,
}

impl Shortened {
    /// Reads it from the front of the answer buffer; `None` where the buffer ends within it.
    pub fn read(answer: &[u8]) -> Option<Shortened> {
        let mut rest = answer;
        let left = counted(&mut rest, |[parent, label, edge, position, figure]| {
            LeftNode {
                parent: PatternNode(parent.into()),
                label,
                descendant: edge == 1,
                position,
                figure,
            }
        })?;
        let struck = counted(&mut rest, |[node]| PatternNode(node.into()))?;
        Some(Shortened { left, struck })
    }
}

/// Reads a count and as many document nodes from the front of the answer buffer, as `nodes_at` writes
/// them; `None` where the buffer ends within them.
pub fn nodes_shown(answer: &[u8]) -> Option<Vec<DocumentNode>> {
    let mut rest = answer;
    counted(&mut rest, |[node]| DocumentNode(node.into()))
}

/// A count and as many records of N fields; steps past them.
fn counted<const N: usize, T>(rest: &mut &[u8], made: impl Fn([u16; N]) -> T) -> Option<Vec<T>> {
    let count = field(rest)?;
    let mut record = || {
        let mut fields = [0; N];
        for place in &mut fields {
            *place = field(rest)?;
        }
        Some(made(fields))
    };
    (0..count).map(|_| record()).collect()
}

/// A field, low byte first, and steps past it.
fn field(rest: &mut &[u8]) -> Option<u16> {
    let (bytes, after) = rest.split_first_chunk::<2>()?;
    *rest = after;
    Some(u16::from_le_bytes(*bytes))
}

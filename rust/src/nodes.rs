//! Node numbers of three kinds, and the records of a laid-out document.

/// A number of a document's node (document 01: volume node).
#[repr(transparent)]
#[derive(Clone, Copy, Debug, Default, PartialEq, Eq, PartialOrd, Ord, Hash)]
pub struct DocumentNode(pub usize);

/// A number of a summary's node (document 01: outline node), which stands for one path.
#[repr(transparent)]
#[derive(Clone, Copy, Debug, Default, PartialEq, Eq, PartialOrd, Ord, Hash)]
pub struct SummaryNode(pub usize);

/// A number of a pattern's node (document 01: selection node).
#[repr(transparent)]
#[derive(Clone, Copy, Debug, Default, PartialEq, Eq, PartialOrd, Ord, Hash)]
pub struct PatternNode(pub usize);

/// A node of a laid-out document: its parent, the summary node on whose path it is, its label, its
/// figure. The root's parent is node 0.
#[repr(C)]
#[derive(Clone, Copy, Debug, Default, PartialEq, Eq)]
pub struct NodeRecord {
    /// The node above it.
    pub parent: DocumentNode,
    /// Its path.
    pub at: SummaryNode,
    /// Its label.
    pub label: u16,
    /// Its figure.
    pub figure: u16,
}

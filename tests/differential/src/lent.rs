//! What is lent to a call. The library and the reference each get their own, filled alike with a
//! pattern in which no two neighbours agree, and with more of the pattern around what is lent.

use cadwezin::{DocumentNode, NodeRecord, SummaryNode};
use reference::NodeRecord as ReferenceRecord;

/// How much stands before and behind what is lent.
const AROUND: usize = 40;

/// The most bytes or records that a call is lent here.
pub const LENT_MOST: usize = 1 << 16;

/// Bytes or records of which some in the middle are lent.
pub struct Lent<T> {
    pattern: Vec<T>,
    ours: Vec<T>,
    length: usize,
}

impl<T: Copy + PartialEq> Lent<T> {
    fn new(pattern: impl Fn(usize) -> T) -> Self {
        let pattern: Vec<T> = (0..LENT_MOST + 2 * AROUND).map(pattern).collect();
        Lent {
            ours: pattern.clone(),
            pattern,
            length: 0,
        }
    }

    /// So much of it, filled.
    pub fn lend(&mut self, length: usize) -> &mut [T] {
        self.length = length;
        let end = length + 2 * AROUND;
        self.ours[..end].copy_from_slice(&self.pattern[..end]);
        &mut self.ours[AROUND..AROUND + length]
    }

    /// What was lent, as it is now.
    pub fn now(&self) -> &[T] {
        &self.ours[AROUND..AROUND + self.length]
    }

    /// Whether all but the first so many lent are as they were, and all around too.
    pub fn untouched_from(&self, written: usize) -> bool {
        let end = self.length + 2 * AROUND;
        let after = AROUND + written;
        self.ours[..AROUND] == self.pattern[..AROUND]
            && after <= end
            && self.ours[after..end] == self.pattern[after..end]
    }
}

/// A number for each place, with no run of equal ones.
fn mixed(place: usize) -> u64 {
    let mut number = (place as u64 + 1).wrapping_mul(0x9E37_79B9_7F4A_7C15);
    number ^= number >> 29;
    number.wrapping_mul(0xBF58_476D_1CE4_E5B9) >> 7
}

/// Buffers and tables for one call of the library and one of the reference.
pub struct Loans {
    pub bytes: Lent<u8>,
    pub reference_bytes: Lent<u8>,
    pub records: Lent<NodeRecord>,
    pub reference_records: Lent<ReferenceRecord>,
}

impl Default for Loans {
    fn default() -> Self {
        let byte = |place| mixed(place) as u8;
        Loans {
            bytes: Lent::new(byte),
            reference_bytes: Lent::new(byte),
            records: Lent::new(|place| NodeRecord {
                parent: DocumentNode(mixed(4 * place) as usize),
                at: SummaryNode(mixed(4 * place + 1) as usize),
                label: mixed(4 * place + 2) as u16,
                figure: mixed(4 * place + 3) as u16,
            }),
            reference_records: Lent::new(|place| ReferenceRecord {
                parent: mixed(4 * place) as u16,
                outline: mixed(4 * place + 1) as u16,
                label: mixed(4 * place + 2) as u16,
                figure: mixed(4 * place + 3) as u16,
            }),
        }
    }
}

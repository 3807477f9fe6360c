//! Sections and records, and the questions 3 to 8, 10, 14 and 17 about them.

use std::iter;

/// "Has the case at most 65,536 bytes" (question 3).
pub const CASE_BYTES: usize = 65_536;
/// "a rooted tree of 1 to 64 nodes"
pub const OUTLINE_NODES: usize = 64;
/// "a rooted tree of 1 to 16 nodes"
pub const SELECTION_NODES: usize = 16;
/// "14, the set's count is not 1 to 8"
pub const SET_SELECTIONS: usize = 8;
/// "calls take up to 1,024 nodes"
pub const VOLUME_NODES: usize = 1_024;
/// "k (1 to 8) hold the positions 1 to k"
pub const POSITIONS: u16 = 8;
/// "17, a figure above 2,000"
pub const FIGURE_MOST: u16 = 2_000;

/// "outline records (parent, label, strong 0 or 1)"
#[derive(Clone, Debug, PartialEq, Eq)]
pub struct OutlineNode {
    pub parent: usize,
    pub label: u16,
    /// Whether the edge from the parent is strong; never so on the root.
    pub strong: bool,
}

/// "records (parent, label, edge 0 child or 1 descendant, position or 0)", which gain
/// "as last field [...] the least figure they accept".
#[derive(Clone, Debug, PartialEq, Eq)]
pub struct SelectionNode {
    pub parent: usize,
    /// 0 stands for any label.
    pub label: u16,
    pub descendant: bool,
    /// 0 where the node holds none.
    pub position: usize,
    /// The least figure accepted.
    pub figure: u16,
}

/// "A volume is one section of records (parent, label)", which "gain the figure as
/// last field".
#[derive(Clone, Debug, PartialEq, Eq)]
pub struct VolumeNode {
    pub parent: usize,
    pub label: u16,
    pub figure: u16,
}

/// A case that questions 3 to 8, 14 and 17 do not refuse.
#[derive(Clone, Debug, PartialEq, Eq)]
pub struct Case {
    pub outline: Vec<OutlineNode>,
    pub first: Vec<SelectionNode>,
    /// The members of the set, which count as one, in their order.
    pub set: Vec<Vec<SelectionNode>>,
    /// k, the same in the first selection and all members.
    pub positions: usize,
}

impl Case {
    /// "selection numbers run from 1 to one more than the count": 1 is the
    /// first selection, 1 + i the i-th member.
    pub fn selection(&self, number: u64) -> Option<&Vec<SelectionNode>> {
        match number {
            0 => None,
            1 => Some(&self.first),
            _ => self.set.get(usize::try_from(number - 2).ok()?),
        }
    }

    /// What `read_case` reads it from.
    pub fn bytes(&self) -> Vec<u8> {
        let mut out = section_bytes(self.outline.iter().map(outline_row));
        out.extend(section_bytes(self.first.iter().map(selection_row)));
        out.extend((self.set.len() as u16).to_le_bytes());
        for member in &self.set {
            out.extend(section_bytes(member.iter().map(selection_row)));
        }
        out
    }
}

/// A question answered no refuses the call with the question's number.
pub fn ask(number: u64, yes: bool) -> Result<(), u64> {
    if yes {
        Ok(())
    } else {
        Err(number)
    }
}

/// Questions 3 to 8, 14 "right after question 4" and 17 "after question 7", each
/// asked of the whole case before the next one.
pub fn read_case(bytes: &[u8]) -> Result<Case, u64> {
    let (outline, first, set) = case_sections(bytes).ok_or(3u64)?;
    let selections = || iter::once(&first).chain(&set);
    let counts_right = (1..=OUTLINE_NODES).contains(&outline.len())
        && selections().all(|rows| (1..=SELECTION_NODES).contains(&rows.len()));
    ask(4, counts_right)?;
    ask(14, (1..=SET_SELECTIONS).contains(&set.len()))?;
    ask(5, outline_rules(&outline))?;
    ask(6, siblings_differ(&outline))?;
    ask(7, selections().all(|rows| selection_rules(rows)))?;
    ask(17, selections().all(|rows| figures_right(rows)))?;
    let positions = common_positions(&first, &set).ok_or(8u64)?;
    Ok(Case {
        outline: outline.iter().map(outline_node).collect(),
        first: selection_nodes(&first),
        set: set.iter().map(|rows| selection_nodes(rows)).collect(),
        positions,
    })
}

/// Question 10, "Is the volume whole, nothing after, with 1 to 1,024 nodes,
/// parents by the rule and labels not 0?", and then 17.
pub fn read_volume(bytes: &[u8]) -> Result<Vec<VolumeNode>, u64> {
    let rows = volume_section(bytes).ok_or(10u64)?;
    ask(10, (1..=VOLUME_NODES).contains(&rows.len()))?;
    let rules = rows
        .iter()
        .enumerate()
        .all(|(number, row)| parent_rule(number, row[0]) && row[1] != 0);
    ask(10, rules)?;
    ask(17, figures_right(&rows))?;
    Ok(rows.iter().map(volume_node).collect())
}

/// "A list is bare fields with no count." Bytes of odd length are no list.
pub fn read_list(bytes: &[u8]) -> Option<Vec<usize>> {
    let mut fields = Fields { rest: bytes };
    let mut list = Vec::new();
    while !fields.rest.is_empty() {
        list.push(usize::from(fields.next()?));
    }
    Some(list)
}

/// The node of the selection that holds the position, if one does.
pub fn holder(selection: &[SelectionNode], position: usize) -> Option<usize> {
    selection.iter().position(|node| node.position == position)
}

/// The nodes of records that question 7 does not refuse.
pub fn selection_nodes(rows: &[[u16; 5]]) -> Vec<SelectionNode> {
    rows.iter()
        .map(|&[parent, label, edge, position, figure]| SelectionNode {
            parent: parent.into(),
            label,
            descendant: edge == 1,
            position: position.into(),
            figure,
        })
        .collect()
}

/// What is left to be read of some bytes.
pub(crate) struct Fields<'a> {
    pub(crate) rest: &'a [u8],
}

impl Fields<'_> {
    /// "Every field is 16 bits, low byte first."
    fn next(&mut self) -> Option<u16> {
        let (field, rest) = self.rest.split_first_chunk::<2>()?;
        self.rest = rest;
        Some(u16::from_le_bytes(*field))
    }

    /// A count and as many whole records of N fields, or `None`.
    pub(crate) fn section<const N: usize>(&mut self) -> Option<Vec<[u16; N]>> {
        let count = self.next()?;
        let mut rows = Vec::new();
        for _ in 0..count {
            let mut row = [0; N];
            for field in &mut row {
                *field = self.next()?;
            }
            rows.push(row);
        }
        Some(rows)
    }
}

/// A count and as many records.
pub(crate) fn section_bytes<const N: usize>(
    rows: impl ExactSizeIterator<Item = [u16; N]>,
) -> Vec<u8> {
    let count = [rows.len() as u16];
    let fields = count.into_iter().chain(rows.flatten());
    fields.flat_map(u16::to_le_bytes).collect()
}

type SelectionRows = Vec<[u16; 5]>;
type CaseSections = (Vec<[u16; 3]>, SelectionRows, Vec<SelectionRows>);

/// Question 3: "Has the case at most 65,536 bytes, every count and announced
/// record whole, and nothing after?" The set is "a count of selections followed
/// by that many selection sections", whatever the count is.
fn case_sections(bytes: &[u8]) -> Option<CaseSections> {
    if bytes.len() > CASE_BYTES {
        return None;
    }
    let mut fields = Fields { rest: bytes };
    let (outline, first) = (fields.section()?, fields.section()?);
    let mut set = Vec::new();
    for _ in 0..fields.next()? {
        set.push(fields.section()?);
    }
    fields.rest.is_empty().then_some((outline, first, set))
}

fn volume_section(bytes: &[u8]) -> Option<Vec<[u16; 3]>> {
    let mut fields = Fields { rest: bytes };
    let rows = fields.section()?;
    fields.rest.is_empty().then_some(rows)
}

/// "Record 0 is the root, with parent 0 [...]. Any other parent number is
/// below its record's own."
pub(crate) fn parent_rule(number: usize, parent: u16) -> bool {
    if number == 0 {
        parent == 0
    } else {
        usize::from(parent) < number
    }
}

/// Strong and edge are 0 or 1, and 0 on the root.
pub(crate) fn flag_rule(number: usize, flag: u16) -> bool {
    if number == 0 {
        flag == 0
    } else {
        flag <= 1
    }
}

/// Question 5; "Labels are 1 to 65,535."
pub(crate) fn outline_rules(rows: &[[u16; 3]]) -> bool {
    rows.iter()
        .enumerate()
        .all(|(number, &[parent, label, strong])| {
            parent_rule(number, parent) && label != 0 && flag_rule(number, strong)
        })
}

/// Question 6: "Do siblings in the outline have different labels?" The root,
/// whose parent field is 0 too, is nobody's sibling.
pub(crate) fn siblings_differ(rows: &[[u16; 3]]) -> bool {
    (1..rows.len()).all(|i| (1..i).all(|j| rows[i][0] != rows[j][0] || rows[i][1] != rows[j][1]))
}

/// Question 7, for one selection. A selection's label is any number.
fn selection_rules(rows: &[[u16; 5]]) -> bool {
    rows.iter()
        .enumerate()
        .all(|(number, &[parent, _, edge, position, _])| {
            parent_rule(number, parent) && flag_rule(number, edge) && position <= POSITIONS
        })
}

/// Question 17, for one selection or a volume: the figure is the last field.
fn figures_right<const N: usize>(rows: &[[u16; N]]) -> bool {
    rows.iter().all(|row| row[N - 1] <= FIGURE_MOST)
}

/// Question 8: k, if "each selection [has] the positions 1 to k once each, k
/// at least 1", the same k in the first and in all members.
fn common_positions(first: &[[u16; 5]], set: &[SelectionRows]) -> Option<usize> {
    let held = held_positions(first);
    let from_one = held
        .iter()
        .zip(1u16..)
        .all(|(&held, wanted)| held == wanted);
    let same = set.iter().all(|rows| held_positions(rows) == held);
    (!held.is_empty() && from_one && same).then_some(held.len())
}

/// The positions that are held, ascending, each as often as it is.
fn held_positions(rows: &[[u16; 5]]) -> Vec<u16> {
    let mut held: Vec<u16> = rows.iter().map(|row| row[3]).filter(|&p| p != 0).collect();
    held.sort_unstable();
    held
}

pub(crate) fn outline_node(&[parent, label, strong]: &[u16; 3]) -> OutlineNode {
    OutlineNode {
        parent: parent.into(),
        label,
        strong: strong == 1,
    }
}

pub(crate) fn outline_row(node: &OutlineNode) -> [u16; 3] {
    [node.parent as u16, node.label, node.strong.into()]
}

pub(crate) fn selection_row(node: &SelectionNode) -> [u16; 5] {
    [
        node.parent as u16,
        node.label,
        node.descendant.into(),
        node.position as u16,
        node.figure,
    ]
}

pub(crate) fn volume_node(&[parent, label, figure]: &[u16; 3]) -> VolumeNode {
    VolumeNode {
        parent: parent.into(),
        label,
        figure,
    }
}

pub(crate) fn volume_row(node: &VolumeNode) -> [u16; 3] {
    [node.parent as u16, node.label, node.figure]
}

#[cfg(test)]
mod tests {
    use super::*;

    fn bytes(fields: &[u16]) -> Vec<u8> {
        fields
            .iter()
            .flat_map(|field| field.to_le_bytes())
            .collect()
    }

    /// An outline of one node, and a selection of one node with position 1.
    const OUTLINE: [u16; 4] = [1, 0, 1, 0];
    const SELECTION: [u16; 6] = [1, 0, 1, 0, 1, 0];

    fn refused(parts: &[&[u16]]) -> u64 {
        read_case(&bytes(&parts.concat())).err().unwrap_or(0)
    }

    #[test]
    fn the_whole_case_is_read_before_any_count_is_judged() {
        assert_eq!(refused(&[&[0, 0, 0]]), 4);
        assert_eq!(refused(&[&[0, 0, 1, 0]]), 4);
        assert_eq!(refused(&[&[0, 0]]), 3);
        assert_eq!(refused(&[&[0, 0, 1]]), 3);
        assert_eq!(refused(&[&[0, 0, 0, 0]]), 3);
        assert_eq!(refused(&[]), 3);
    }

    #[test]
    fn a_case_of_65536_bytes_is_not_too_long() {
        let mut fields = vec![5];
        fields.extend([0; 15]);
        fields.push(6_550);
        fields.extend(vec![0; 6_550 * 5]);
        fields.push(0);
        let mut case = bytes(&fields);
        assert_eq!(case.len(), 65_536);
        assert_eq!(read_case(&case).unwrap_err(), 4);
        case.push(0);
        assert_eq!(read_case(&case).unwrap_err(), 3);
    }

    #[test]
    fn as_many_sections_are_read_as_announced() {
        let empty = [0; 32_757];
        let whole = |count: u16| refused(&[&OUTLINE, &SELECTION, &[count], &empty]);
        assert_eq!(2 * (4 + 6 + 1 + empty.len()), 65_536);
        assert_eq!(whole(32_757), 4);
        assert_eq!(whole(32_756), 3);
        assert_eq!(whole(32_758), 3);
        assert_eq!(whole(u16::MAX), 3);
    }

    #[test]
    fn question_7_is_asked_of_all_selections_before_question_8_of_any() {
        let (none, ninth) = ([1, 0, 1, 0, 0, 0], [1, 0, 1, 0, 9, 0]);
        assert_eq!(refused(&[&OUTLINE, &none, &[1], &ninth]), 7);
        assert_eq!(refused(&[&OUTLINE, &none, &[2], &SELECTION, &ninth]), 7);
        assert_eq!(refused(&[&OUTLINE, &SELECTION, &[2], &none, &ninth]), 7);
        assert_eq!(refused(&[&OUTLINE, &SELECTION, &[2], &SELECTION, &none]), 8);
    }

    #[test]
    fn question_17_is_a_pass_of_its_own_between_7_and_8() {
        let (none, ninth) = ([1, 0, 1, 0, 0, 0], [1, 0, 1, 0, 9, 0]);
        let figure = |figure| [1, 0, 1, 0, 1, figure];
        let high = figure(FIGURE_MOST + 1);
        assert_eq!(refused(&[&OUTLINE, &high, &[2], &SELECTION, &ninth]), 7);
        assert_eq!(refused(&[&OUTLINE, &none, &[2], &SELECTION, &high]), 17);
        assert_eq!(refused(&[&OUTLINE, &SELECTION, &[2], &high, &none]), 17);
        for (number, refusal) in [(0, 0), (2_000, 0), (2_001, 17), (u16::MAX, 17)] {
            let (one, good) = (figure(number), &SELECTION);
            assert_eq!(refused(&[&OUTLINE, &one, &[2], good, good]), refusal);
            assert_eq!(refused(&[&OUTLINE, good, &[2], &one, good]), refusal);
            assert_eq!(refused(&[&OUTLINE, good, &[2], good, &one]), refusal);
        }
    }

    #[test]
    fn question_10_is_about_the_whole_volume_before_17_about_any_of_it() {
        let refused = |fields: &[u16]| read_volume(&bytes(fields)).err().unwrap_or(0);
        assert_eq!(refused(&[2, 0, 1, 2_000, 0, 1, 0]), 0);
        assert_eq!(refused(&[2, 0, 1, 2_001, 0, 1, 0]), 17);
        assert_eq!(refused(&[2, 0, 1, 0, 0, 1, u16::MAX]), 17);
        assert_eq!(refused(&[2, 0, 1, 2_001, 0, 0, 0]), 10);
        assert_eq!(refused(&[2, 0, 1, 2_001, 0, 1]), 10);
        // Records of two fields, as they were.
        assert_eq!(refused(&[2, 0, 1, 0, 1]), 10);
    }

    #[test]
    fn a_root_and_its_child_may_share_a_label() {
        let outline = [2, 0, 1, 0, 0, 1, 0];
        assert_eq!(refused(&[&outline, &SELECTION, &[1], &SELECTION]), 0);
    }

    #[test]
    fn selections_are_numbered_from_the_first_on() {
        let labels = [7, 8, 9].map(|label| [1, 0, label, 0, 1, 0]);
        let [first, one, two] = &labels;
        let case = bytes(&[&OUTLINE, &first[..], &[2], one, two].concat());
        let case = read_case(&case).unwrap();
        let label = |number| case.selection(number).map(|nodes| nodes[0].label);
        assert_eq!([1, 2, 3].map(label), [Some(7), Some(8), Some(9)]);
        assert_eq!([0, 4, u64::MAX].map(label), [None; 3]);
    }

    #[test]
    fn lists_are_even() {
        assert_eq!(read_list(&[]), Some(vec![]));
        assert_eq!(read_list(&[1, 2]), Some(vec![513]));
        assert_eq!(read_list(&[1, 2, 3]), None);
    }
}

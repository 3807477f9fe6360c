//! The old form of a case, which is document 01's own: "A case has three:
//! outline records (parent, label, strong 0 or 1); first selection; second
//! selection, both with records (parent, label, edge 0 child or 1 descendant,
//! position or 0)." The archive holds cases in it, so it stays as it is, whatever
//! becomes of today's records.

use crate::records::{
    ask, flag_rule, outline_node, outline_row, outline_rules, parent_rule, section_bytes,
    siblings_differ, Case, Fields, OutlineNode, SelectionNode, CASE_BYTES, OUTLINE_NODES,
    POSITIONS, SELECTION_NODES,
};

/// Parent, label, edge, position: four fields, for ever.
type Row = [u16; 4];

/// An old case that questions 3 to 8 do not refuse.
#[derive(Clone, Debug, PartialEq, Eq)]
pub struct OldCase {
    outline: Vec<OutlineNode>,
    first: Vec<Row>,
    second: Vec<Row>,
    /// k, the same in both selections.
    positions: usize,
}

/// Questions 3 to 8 as document 01 has them; of an old case there is nothing
/// else to ask.
pub fn read_old_case(bytes: &[u8]) -> Result<OldCase, u64> {
    let (outline, first, second) = old_sections(bytes).ok_or(3u64)?;
    let selections = [&first, &second];
    // "Are the counts 1 to 64, 1 to 16 and 1 to 16?"
    let counts_right = (1..=OUTLINE_NODES).contains(&outline.len())
        && selections
            .iter()
            .all(|rows| (1..=SELECTION_NODES).contains(&rows.len()));
    ask(4, counts_right)?;
    ask(5, outline_rules(&outline))?;
    ask(6, siblings_differ(&outline))?;
    ask(7, selections.iter().all(|rows| selection_rules(rows)))?;
    let positions = held_by(&first).ok_or(8u64)?;
    ask(8, held_by(&second) == Some(positions))?;
    Ok(OldCase {
        outline: outline.iter().map(outline_node).collect(),
        first,
        second,
        positions,
    })
}

/// The case in the old form, where its set is of one selection and every figure
/// is 0: "The tools of #102 give and require 0."
pub fn old_case(case: &Case) -> Option<OldCase> {
    let [only] = &case.set[..] else {
        return None;
    };
    Some(OldCase {
        outline: case.outline.clone(),
        first: case.first.iter().map(row).collect::<Option<_>>()?,
        second: only.iter().map(row).collect::<Option<_>>()?,
        positions: case.positions,
    })
}

impl OldCase {
    /// The case that it is today, with "a set of one" and figures of 0.
    pub fn with_set_of_one(&self) -> Case {
        Case {
            outline: self.outline.clone(),
            first: self.first.iter().map(node).collect(),
            set: vec![self.second.iter().map(node).collect()],
            positions: self.positions,
        }
    }

    pub fn bytes(&self) -> Vec<u8> {
        let mut out = section_bytes(self.outline.iter().map(outline_row));
        for rows in [&self.first, &self.second] {
            out.extend(section_bytes(rows.iter().copied()));
        }
        out
    }
}

type OldSections = (Vec<[u16; 3]>, Vec<Row>, Vec<Row>);

/// Question 3: "Has the case at most 65,536 bytes, every count and announced
/// record whole, and nothing after?"
fn old_sections(bytes: &[u8]) -> Option<OldSections> {
    if bytes.len() > CASE_BYTES {
        return None;
    }
    let mut fields = Fields { rest: bytes };
    let sections = (fields.section()?, fields.section()?, fields.section()?);
    fields.rest.is_empty().then_some(sections)
}

/// Question 7, for one selection: "the rules for parent and edge, with
/// positions at most 8".
fn selection_rules(rows: &[Row]) -> bool {
    rows.iter()
        .enumerate()
        .all(|(number, &[parent, _, edge, position])| {
            parent_rule(number, parent) && flag_rule(number, edge) && position <= POSITIONS
        })
}

/// Question 8, for one selection: k, if it has "the positions 1 to k once each,
/// k at least 1".
fn held_by(rows: &[Row]) -> Option<usize> {
    let held: Vec<usize> = rows
        .iter()
        .map(|row| row[3].into())
        .filter(|&p| p != 0)
        .collect();
    let once = |p| held.iter().filter(|&&held| held == p).count() == 1;
    (!held.is_empty() && (1..=held.len()).all(once)).then_some(held.len())
}

fn node(&[parent, label, edge, position]: &Row) -> SelectionNode {
    SelectionNode {
        parent: parent.into(),
        label,
        descendant: edge == 1,
        position: position.into(),
        figure: 0,
    }
}

/// `None` where the old form has no place for what is asked.
fn row(node: &SelectionNode) -> Option<Row> {
    let row = [
        node.parent as u16,
        node.label,
        node.descendant.into(),
        node.position as u16,
    ];
    (node.figure == 0).then_some(row)
}

#[cfg(test)]
mod tests {
    use super::*;
    use crate::records::read_case;

    fn bytes(fields: &[u16]) -> Vec<u8> {
        fields
            .iter()
            .flat_map(|field| field.to_le_bytes())
            .collect()
    }

    /// An outline of one node, and a selection of one node with position 1.
    const OUTLINE: [u16; 4] = [1, 0, 1, 0];
    const SELECTION: [u16; 5] = [1, 0, 1, 0, 1];

    fn refused(parts: &[&[u16]]) -> u64 {
        read_old_case(&bytes(&parts.concat())).err().unwrap_or(0)
    }

    #[test]
    fn a_case_has_three_sections() {
        assert_eq!(refused(&[&OUTLINE, &SELECTION, &SELECTION]), 0);
        assert_eq!(refused(&[&OUTLINE, &SELECTION]), 3);
        assert_eq!(refused(&[&OUTLINE, &SELECTION, &SELECTION, &SELECTION]), 3);
        assert_eq!(refused(&[&OUTLINE, &SELECTION, &[1], &SELECTION]), 3);
        assert_eq!(refused(&[&[0, 0, 0]]), 4);
        assert_eq!(refused(&[&[0, 0]]), 3);
        assert_eq!(refused(&[&[0, 0, 0, 0]]), 3);
    }

    #[test]
    fn a_case_of_65536_bytes_is_not_too_long() {
        for (first, second) in [(8_189, 0), (0, 8_189), (4_000, 4_189)] {
            let mut fields = vec![3];
            fields.extend([0; 9]);
            for count in [first, second] {
                fields.push(count);
                fields.extend(vec![0; 4 * usize::from(count)]);
            }
            let mut case = bytes(&fields);
            assert_eq!(case.len(), 65_536);
            assert_eq!(read_old_case(&case), Err(4));
            case.push(0);
            assert_eq!(read_old_case(&case), Err(3));
        }
    }

    #[test]
    fn question_7_is_asked_of_both_before_question_8_of_any() {
        let (none, ninth) = ([1, 0, 1, 0, 0], [1, 0, 1, 0, 9]);
        assert_eq!(refused(&[&OUTLINE, &none, &ninth]), 7);
        assert_eq!(refused(&[&OUTLINE, &ninth, &none]), 7);
        assert_eq!(refused(&[&OUTLINE, &none, &SELECTION]), 8);
        assert_eq!(refused(&[&OUTLINE, &SELECTION, &none]), 8);
    }

    #[test]
    fn the_positions_are_1_to_k_and_the_same_k() {
        let held = |first: &[u16], second: &[u16]| {
            let section = |held: &[u16]| {
                let mut fields = vec![held.len() as u16];
                fields.extend(held.iter().flat_map(|&position| [0, 1, 0, position]));
                fields
            };
            refused(&[&OUTLINE, &section(first), &section(second)])
        };
        assert_eq!(held(&[1, 2], &[2, 0, 1]), 0);
        assert_eq!(
            held(&[8, 7, 6, 5, 4, 3, 2, 1], &[1, 2, 3, 4, 5, 6, 7, 8]),
            0
        );
        for wrong in [&[1][..], &[1, 2, 3], &[2, 3], &[1, 1], &[1, 2, 2], &[0, 0]] {
            assert_eq!(held(&[1, 2], wrong), 8);
            assert_eq!(held(wrong, &[1, 2]), 8);
        }
        assert_eq!(held(&[2], &[2]), 8);
    }

    #[test]
    fn a_set_of_one_and_no_other_goes_back() {
        let old = bytes(&[&OUTLINE[..], &SELECTION, &SELECTION].concat());
        let figured = [&SELECTION[..], &[0]].concat();
        let today = bytes(&[&OUTLINE[..], &figured, &[1], &figured].concat());
        let read = read_old_case(&old).unwrap();
        assert_eq!(read.bytes(), old);
        assert_eq!(read.with_set_of_one().bytes(), today);
        let mut case = read_case(&today).unwrap();
        assert_eq!(case, read.with_set_of_one());
        assert_eq!(old_case(&case), Some(read));
        for figure in [1, 2_000] {
            let mut asking = case.clone();
            asking.first[0].figure = figure;
            assert_eq!(old_case(&asking), None);
            let mut asking = case.clone();
            asking.set[0][0].figure = figure;
            assert_eq!(old_case(&asking), None);
        }
        case.set.push(case.first.clone());
        assert_eq!(old_case(&case), None);
        case.set.clear();
        assert_eq!(old_case(&case), None);
    }
}

//! A call being built: rows of numbers that still can be spoilt, and how they
//! become a vector.

use super::figures;
use crate::calls::{
    minimise, verdict, MinimiseAnswer, VerdictAnswer, ANSWER_BYTES, CALLERS, TABLE_RECORDS,
    VERDICTS_MOST,
};
use crate::vectors::{
    Vector, DOWNGRADE, FITS, IS_RESULT, LAYOUT, MINIMISE, NODES_AT, NORMALISE, PATHS, UPGRADE,
    VERDICT,
};

pub const CALLS: [u32; 10] = [
    VERDICT, FITS, IS_RESULT, NODES_AT, PATHS, LAYOUT, UPGRADE, DOWNGRADE, MINIMISE, NORMALISE,
];
/// Those that have a limit, a caller and tallies.
pub const TALLIED: [u32; 2] = [VERDICT, MINIMISE];
/// Those that move a case from one form to the other.
pub const MOVES: [u32; 2] = [UPGRADE, DOWNGRADE];

pub type OutlineRow = [u16; 3];
pub type SelectionRow = [u16; 5];
pub type Set = Vec<Vec<SelectionRow>>;
pub type VolumeRow = [u16; 3];

/// Question 17 as it is asked about a volume, to tell it from that about the
/// selections.
pub const VOLUME_FIGURE: u64 = 1_017;

/// What a question refuses with.
#[cfg(test)]
pub fn refusal_of(question: u64) -> u64 {
    if question == VOLUME_FIGURE {
        17
    } else {
        question
    }
}

/// The questions of a call, in its order.
pub fn questions(call: u32) -> &'static [u64] {
    match call {
        VERDICT | MINIMISE => &[1, 2, 3, 4, 14, 5, 6, 7, 17, 8, 16, 9],
        FITS => &[3, 4, 14, 5, 6, 7, 17, 8, 10, VOLUME_FIGURE],
        IS_RESULT => &[3, 4, 14, 5, 6, 7, 17, 8, 10, VOLUME_FIGURE, 12, 11],
        NODES_AT => &[2, 3, 4, 14, 5, 6, 7, 17, 8, 10, VOLUME_FIGURE, 12],
        PATHS => &[3, 4, 14, 5, 6, 7, 17, 8, 12],
        UPGRADE => &[2, 3, 4, 5, 6, 7, 8],
        DOWNGRADE => &[2, 3, 4, 14, 5, 6, 7, 17, 8, 15],
        NORMALISE => &[2, 3, 4, 14, 5, 6, 7, 17, 8],
        _ => &[2, 3, 4, 14, 5, 6, 7, 17, 8, 12, 13],
    }
}

/// The least length of the lent buffer or table, 0 where nothing is lent.
pub fn least_length(call: u32) -> u64 {
    match call {
        VERDICT | NODES_AT | UPGRADE | DOWNGRADE | MINIMISE | NORMALISE => ANSWER_BYTES as u64,
        LAYOUT => TABLE_RECORDS as u64,
        _ => 0,
    }
}

/// The calls that are lent a buffer or a table.
const LENDING: [u32; 7] = [
    VERDICT, NODES_AT, LAYOUT, UPGRADE, DOWNGRADE, MINIMISE, NORMALISE,
];

/// What becomes of bytes after they are written: some are cut off the end,
/// then others follow.
#[derive(Clone, Debug, Default)]
pub struct Ending {
    pub cut: usize,
    pub after: Vec<u8>,
}

impl Ending {
    fn apply(&self, mut bytes: Vec<u8>) -> Vec<u8> {
        bytes.truncate(bytes.len().saturating_sub(self.cut));
        bytes.extend(&self.after);
        bytes
    }
}

/// How many records each count announces too many; the set's count, members.
/// One too few is `u16::MAX`.
#[derive(Clone, Debug, Default)]
pub struct Excess {
    pub outline: u16,
    pub first: u16,
    pub set: u16,
    pub last_member: u16,
    pub volume: u16,
}

/// How a case is written.
#[derive(Clone, Copy, Debug, Default, PartialEq, Eq)]
pub enum Form {
    #[default]
    Today,
    /// As it was before there were figures: selection records have four fields.
    Narrow,
    /// As it was before there were sets: besides, the set has no count, and its
    /// only member is the second selection.
    Old,
}

impl Form {
    pub const ALL: [Form; 3] = [Form::Today, Form::Narrow, Form::Old];

    /// The one that a call takes.
    pub fn of(call: u32) -> Form {
        if call == UPGRADE {
            Form::Old
        } else {
            Form::Today
        }
    }
}

/// The result list and the placement list are kept apart, so that one plan
/// serves every call.
#[derive(Clone, Debug, Default)]
pub struct Plan {
    pub call: u32,
    pub limit: u64,
    pub tally: u64,
    pub caller: u64,
    pub selection: u64,
    pub position: u64,
    pub length: u64,
    pub outline: Vec<OutlineRow>,
    pub first: Vec<SelectionRow>,
    pub set: Set,
    pub form: Form,
    pub volume: Vec<VolumeRow>,
    /// Whether the volume's records are written without their figures, as they
    /// were before there were any.
    pub narrow_volume: bool,
    pub result: Vec<u16>,
    pub placement: Vec<u16>,
    pub excess: Excess,
    pub case_ending: Ending,
    pub volume_ending: Ending,
    pub list_ending: Ending,
}

impl Plan {
    pub fn case_bytes(&self) -> Vec<u8> {
        let mut out = Vec::new();
        put_section(&mut out, &self.outline, self.excess.outline);
        self.put_selection(&mut out, &self.first, self.excess.first);
        if self.form != Form::Old {
            put_count(&mut out, self.set.len(), self.excess.set);
        }
        if let Some((last, others)) = self.set.split_last() {
            for member in others {
                self.put_selection(&mut out, member, 0);
            }
            self.put_selection(&mut out, last, self.excess.last_member);
        }
        self.case_ending.apply(out)
    }

    fn put_selection(&self, out: &mut Vec<u8>, rows: &[SelectionRow], announced_more: u16) {
        match self.form {
            Form::Today => put_section(out, rows, announced_more),
            _ => put_section(out, &without_figures::<5, 4>(rows), announced_more),
        }
    }

    /// Bytes of one selection record.
    pub fn record_bytes(&self) -> usize {
        match self.form {
            Form::Today => 10,
            _ => 8,
        }
    }

    pub fn volume_bytes(&self) -> Vec<u8> {
        let (mut out, more) = (Vec::new(), self.excess.volume);
        if self.narrow_volume {
            put_section(&mut out, &without_figures::<3, 2>(&self.volume), more);
        } else {
            put_section(&mut out, &self.volume, more);
        }
        self.volume_ending.apply(out)
    }

    /// All selections.
    pub fn selections_mut(&mut self) -> impl Iterator<Item = &mut Vec<SelectionRow>> {
        std::iter::once(&mut self.first).chain(&mut self.set)
    }

    /// Whether a selection asks for a figure.
    #[cfg(test)]
    pub fn asks_figures(&self) -> bool {
        let mut rows = self.first.iter().chain(self.set.iter().flatten());
        rows.any(|row| row[figures::OF_SELECTION] != 0)
    }

    /// No selection asks for a figure any more.
    pub fn forget_figures(&mut self) {
        for row in self.selections_mut().flatten() {
            row[figures::OF_SELECTION] = 0;
        }
    }

    pub fn list_mut(&mut self) -> &mut Vec<u16> {
        if self.call == LAYOUT {
            &mut self.placement
        } else {
            &mut self.result
        }
    }

    fn list_bytes(&self) -> Vec<u8> {
        let list = if self.call == LAYOUT {
            &self.placement
        } else {
            &self.result
        };
        let mut out = Vec::new();
        put_fields(&mut out, list);
        self.list_ending.apply(out)
    }

    /// k, as far as the first selection goes.
    pub fn positions(&self) -> u64 {
        self.first.iter().filter(|row| row[3] != 0).count() as u64
    }

    /// The number of the last member.
    pub fn last_selection(&self) -> u64 {
        1 + self.set.len() as u64
    }

    /// The selection that the call is about; the first where there is none of
    /// that number.
    pub fn chosen(&self) -> &[SelectionRow] {
        let member = self.selection.checked_sub(2).map(|index| index as usize);
        member
            .and_then(|index| self.set.get(index))
            .unwrap_or(&self.first)
    }

    /// As many members, those there are by turns; the first selection where
    /// there are none.
    pub fn resize_set(&mut self, count: usize) {
        if self.set.is_empty() {
            self.set.push(self.first.clone());
        }
        self.set = self.set.iter().cycle().take(count).cloned().collect();
    }

    /// The verdict on the case, of a caller who has made none before.
    pub fn judged(&self, limit: u64) -> VerdictAnswer {
        let (mut tallies, mut answer) = ([0; CALLERS], [0; ANSWER_BYTES]);
        verdict(&self.case_bytes(), limit, 0, &mut tallies, &mut answer)
    }

    /// What striking out answers, likewise.
    pub fn minimised(&self, limit: u64) -> MinimiseAnswer {
        let (mut tallies, mut answer) = ([0; CALLERS], [0; ANSWER_BYTES]);
        minimise(&self.case_bytes(), limit, 0, &mut tallies, &mut answer)
    }

    /// What question 9 asks room for in the tally.
    pub fn room_asked(&self) -> u64 {
        let verdicts = if self.call == MINIMISE {
            VERDICTS_MOST
        } else {
            1
        };
        self.limit.saturating_mul(verdicts)
    }

    /// The vector, with only what the call takes.
    pub fn vector(&self) -> Vector {
        let call = self.call;
        let given = |to: &[u32], number: u64| if to.contains(&call) { number } else { 0 };
        let bytes = |to: &[u32], bytes: Vec<u8>| if to.contains(&call) { bytes } else { vec![] };
        Vector {
            call,
            limit: given(&TALLIED, self.limit),
            tally: given(&TALLIED, self.tally),
            caller: given(&TALLIED, self.caller),
            selection: given(&[IS_RESULT, NODES_AT, PATHS, LAYOUT], self.selection),
            position: given(&[NODES_AT], self.position),
            length: given(&LENDING, self.length),
            case: self.case_bytes(),
            volume: bytes(&[FITS, IS_RESULT, NODES_AT], self.volume_bytes()),
            list: bytes(&[IS_RESULT, LAYOUT], self.list_bytes()),
        }
    }

    /// The same plan for another call, with a buffer or table just long enough
    /// and the case in the form that the call takes.
    pub fn given_to(&self, call: u32) -> Plan {
        Plan {
            call,
            length: least_length(call),
            form: Form::of(call),
            ..self.clone()
        }
    }

    /// The same so that the call accepts it: a case that is moved has one member,
    /// and asks for no figure.
    pub fn for_call(&self, call: u32) -> Plan {
        let mut plan = self.given_to(call);
        if MOVES.contains(&call) {
            plan.set.truncate(1);
            plan.forget_figures();
        }
        plan
    }
}

pub fn put_fields(out: &mut Vec<u8>, fields: &[u16]) {
    out.extend(fields.iter().flat_map(|field| field.to_le_bytes()));
}

/// Records without their last field.
fn without_figures<const N: usize, const LESS: usize>(rows: &[[u16; N]]) -> Vec<[u16; LESS]> {
    let narrow = |row: &[u16; N]| *row.first_chunk().expect("a record has more fields");
    rows.iter().map(narrow).collect()
}

fn put_count(out: &mut Vec<u8>, count: usize, announced_more: u16) {
    put_fields(out, &[(count as u16).wrapping_add(announced_more)]);
}

pub fn put_section<const N: usize>(out: &mut Vec<u8>, rows: &[[u16; N]], announced_more: u16) {
    put_count(out, rows.len(), announced_more);
    for row in rows {
        put_fields(out, row);
    }
}

//! The ten calls, each with its questions in the order that the documents give;
//! question 14 comes with those about the case, right after question 4, question 17
//! with those about the case, right after question 7, and with that about the volume,
//! right after question 10, and question 16 just before question 9.
//!
//! "A refusal holds its number and zero in every other field. No lent byte,
//! record or tally is altered."

use crate::embedding::{has, is_embedding, Shape};
use crate::judging::{judge, own_result};
use crate::normal::normal;
use crate::old::{old_case, read_old_case, OldCase};
use crate::records::{
    ask, holder, read_case, read_list, read_volume, section_bytes, selection_row, volume_row, Case,
    OutlineNode, SelectionNode, VolumeNode,
};
use crate::striking::{shorten, Shortened};
use crate::trials::{lay_out, outline_as_volume, strong_children, Trial};

pub use crate::judging::{INCLUDED, NONE, NOT_INCLUDED, STOPPED};

const LIMIT: u64 = 1_000_000;
/// "Answer buffers need 8,192 bytes".
pub const ANSWER_BYTES: usize = 8_192;
pub const TABLE_RECORDS: usize = 1_024;
/// What a tally and a limit may come to.
pub const TALLY_MOST: u64 = 1_000_000_000_000;
/// "The single tally becomes eight".
pub const CALLERS: usize = 8;
/// "with 120 times the limit in question 9": 15 leaves are struck by no more than 15 + 14 + .. + 1
/// verdicts.
pub const VERDICTS_MOST: u64 = 120;

/// One for each caller.
pub type Tallies = [u64; CALLERS];

/// `kind` is 0 none (refused), 1 included, 2 not included, 3 stopped.
#[derive(Clone, Copy, Debug, Default, PartialEq, Eq)]
pub struct VerdictAnswer {
    pub refused: u64,
    pub kind: u64,
    pub tried: u64,
}

/// How many leaves were struck, and how many trials all verdicts made took.
#[derive(Clone, Copy, Debug, Default, PartialEq, Eq)]
pub struct MinimiseAnswer {
    pub refused: u64,
    pub struck: u64,
    pub tried: u64,
}

#[derive(Clone, Copy, Debug, Default, PartialEq, Eq)]
pub struct TestAnswer {
    pub refused: u64,
    pub holds: bool,
}

#[derive(Clone, Copy, Debug, Default, PartialEq, Eq)]
pub struct CountAnswer {
    pub refused: u64,
    pub count: u64,
}

/// "Sixteen 64-bit masks, bit i for outline node i, and for each how many
/// paths the node may take; entries past the last node are 0."
#[derive(Clone, Copy, Debug, Default, PartialEq, Eq)]
pub struct PathsAnswer {
    pub refused: u64,
    pub masks: [u64; 16],
    pub counts: [u64; 16],
}

/// "node records (parent, outline node, label)", and the figure.
#[derive(Clone, Copy, Debug, Default, PartialEq, Eq)]
pub struct NodeRecord {
    pub parent: u16,
    pub outline: u16,
    pub label: u16,
    pub figure: u16,
}

/// Verdict, "and a verdict names its caller, 0 to 7". Questions 1 to 8, 16, 9.
pub fn verdict(
    case: &[u8],
    limit: u64,
    caller: u64,
    tallies: &mut Tallies,
    answer: &mut [u8],
) -> VerdictAnswer {
    let (case, caller) = match verdict_questions(case, limit, caller, tallies, answer.len()) {
        Ok(accepted) => accepted,
        Err(refused) => {
            return VerdictAnswer {
                refused,
                ..Default::default()
            }
        }
    };
    let (kind, tried, failed) = judge(&case, limit);
    if let Some(trial) = failed {
        write_trial(&case, &trial, answer);
    }
    // "it grows by tried with each verdict"; "the growth concern[s] that
    // caller's tally only".
    tallies[caller] += tried;
    VerdictAnswer {
        refused: 0,
        kind,
        tried,
    }
}

/// Fits. Questions 3 to 8, 10.
pub fn fits(case: &[u8], volume: &[u8]) -> TestAnswer {
    match fits_questions(case, volume) {
        Ok((case, volume)) => TestAnswer {
            refused: 0,
            holds: volume_fits(&case.outline, &volume),
        },
        Err(refused) => TestAnswer {
            refused,
            ..Default::default()
        },
    }
}

/// Is it a result. Questions 3 to 8, 10, 12, 11. Whether the volume fits is
/// not asked.
pub fn is_result(case: &[u8], selection: u64, volume: &[u8], list: &[u8]) -> TestAnswer {
    match result_questions(case, selection, volume, list) {
        Ok((selection, volume, list)) => TestAnswer {
            refused: 0,
            holds: Shape::new(&selection).is_result(&volume, &list),
        },
        Err(refused) => TestAnswer {
            refused,
            ..Default::default()
        },
    }
}

/// Nodes at a position in any result, "written ascending after their count to
/// the front of the answer buffer". Questions 2 to 8, 10, 12.
pub fn nodes_at(
    case: &[u8],
    selection: u64,
    volume: &[u8],
    position: u64,
    answer: &mut [u8],
) -> CountAnswer {
    match nodes_questions(case, selection, volume, position, answer.len()) {
        Ok((selection, volume, holder)) => {
            let images = Shape::new(&selection).images(&volume);
            let nodes: Vec<usize> = (0..volume.len())
                .filter(|&v| has(images[v], holder))
                .collect();
            let mut at = 0;
            put(answer, &mut at, nodes.len());
            for &v in &nodes {
                put(answer, &mut at, v);
            }
            CountAnswer {
                refused: 0,
                count: nodes.len() as u64,
            }
        }
        Err(refused) => CountAnswer {
            refused,
            ..Default::default()
        },
    }
}

/// Paths of each node: "those it takes in some placement". Questions 3 to 8, 12.
pub fn paths(case: &[u8], selection: u64) -> PathsAnswer {
    let mut answer = PathsAnswer::default();
    match paths_questions(case, selection) {
        Ok((case, selection)) => {
            let images = Shape::new(&selection).images(&outline_as_volume(&case.outline));
            for q in 0..selection.len() {
                for (t, &taken) in images.iter().enumerate() {
                    if has(taken, q) {
                        answer.masks[q] |= 1 << t;
                    }
                }
                answer.counts[q] = u64::from(answer.masks[q].count_ones());
            }
        }
        Err(refused) => answer.refused = refused,
    }
    answer
}

/// Lay out a trial: "The volume fills the front, the rest is untouched; the
/// node count is the result." Questions 2 to 8, 12, 13.
pub fn layout(
    case: &[u8],
    selection: u64,
    placement_list: &[u8],
    table: &mut [NodeRecord],
) -> CountAnswer {
    match layout_questions(case, selection, placement_list, table.len()) {
        Ok((case, selection, placement)) => {
            let nodes = lay_out(&case.outline, &selection, &placement).nodes;
            for (record, node) in table.iter_mut().zip(&nodes) {
                *record = NodeRecord {
                    parent: node.parent as u16,
                    outline: node.outline as u16,
                    label: case.outline[node.outline].label,
                    figure: node.figure,
                };
            }
            CountAnswer {
                refused: 0,
                count: nodes.len() as u64,
            }
        }
        Err(refused) => CountAnswer {
            refused,
            ..Default::default()
        },
    }
}

/// Old to new: "One tool turns an old case into a set of one". The count is how
/// many bytes are written. Question 2, then 3 to 8 of the old form.
pub fn upgrade(case: &[u8], answer: &mut [u8]) -> CountAnswer {
    let old = upgrade_questions(case, answer.len());
    write_case(old.map(|old| old.with_set_of_one().bytes()), answer)
}

/// New to old: "another turns a set of one back". Questions 2 to 8, 15.
pub fn downgrade(case: &[u8], answer: &mut [u8]) -> CountAnswer {
    let old = downgrade_questions(case, answer.len());
    write_case(old.map(|old| old.bytes()), answer)
}

/// One way of writing a case: "A writer (questions 2 to 8) puts every tree in preorder, at the answer
/// buffer's front." The count is how many bytes are written, as many as the case has.
pub fn normalise(case: &[u8], answer: &mut [u8]) -> CountAnswer {
    let case = normalise_questions(case, answer.len());
    write_case(case.map(|case| normal(&case).bytes()), answer)
}

/// Striking out: "so the verdict's questions are put, with 120 times the limit in question 9".
pub fn minimise(
    case: &[u8],
    limit: u64,
    caller: u64,
    tallies: &mut Tallies,
    answer: &mut [u8],
) -> MinimiseAnswer {
    let (case, caller) = match minimise_questions(case, limit, caller, tallies, answer.len()) {
        Ok(accepted) => accepted,
        Err(refused) => {
            return MinimiseAnswer {
                refused,
                ..Default::default()
            }
        }
    };
    let shortened = shorten(&case, limit);
    write_shortened(&shortened, answer);
    // "The trials go to the caller's tally".
    tallies[caller] += shortened.tried;
    MinimiseAnswer {
        refused: 0,
        struck: shortened.struck.len() as u64,
        tried: shortened.tried,
    }
}

/// The verdict's refusal alone, 0 where it is accepted; so for each call.
pub fn verdict_refusal(
    case: &[u8],
    limit: u64,
    caller: u64,
    tallies: &Tallies,
    answer_len: usize,
) -> u64 {
    refusal(verdict_questions(case, limit, caller, tallies, answer_len))
}

pub fn fits_refusal(case: &[u8], volume: &[u8]) -> u64 {
    refusal(fits_questions(case, volume))
}

pub fn result_refusal(case: &[u8], selection: u64, volume: &[u8], list: &[u8]) -> u64 {
    refusal(result_questions(case, selection, volume, list))
}

pub fn nodes_refusal(
    case: &[u8],
    selection: u64,
    volume: &[u8],
    position: u64,
    answer_len: usize,
) -> u64 {
    refusal(nodes_questions(
        case, selection, volume, position, answer_len,
    ))
}

pub fn paths_refusal(case: &[u8], selection: u64) -> u64 {
    refusal(paths_questions(case, selection))
}

pub fn layout_refusal(case: &[u8], selection: u64, placement_list: &[u8], table_len: usize) -> u64 {
    refusal(layout_questions(case, selection, placement_list, table_len))
}

pub fn upgrade_refusal(case: &[u8], answer_len: usize) -> u64 {
    refusal(upgrade_questions(case, answer_len))
}

pub fn downgrade_refusal(case: &[u8], answer_len: usize) -> u64 {
    refusal(downgrade_questions(case, answer_len))
}

pub fn normalise_refusal(case: &[u8], answer_len: usize) -> u64 {
    refusal(normalise_questions(case, answer_len))
}

pub fn minimise_refusal(
    case: &[u8],
    limit: u64,
    caller: u64,
    tallies: &Tallies,
    answer_len: usize,
) -> u64 {
    refusal(minimise_questions(case, limit, caller, tallies, answer_len))
}

fn refusal<T>(questions: Result<T, u64>) -> u64 {
    questions.err().unwrap_or(0)
}

/// The case, and the place of the caller's tally.
type TalliedInput = (Case, usize);

fn verdict_questions(
    case: &[u8],
    limit: u64,
    caller: u64,
    tallies: &Tallies,
    answer_len: usize,
) -> Result<TalliedInput, u64> {
    tallied_questions(case, limit, 1, caller, tallies, answer_len)
}

fn minimise_questions(
    case: &[u8],
    limit: u64,
    caller: u64,
    tallies: &Tallies,
    answer_len: usize,
) -> Result<TalliedInput, u64> {
    tallied_questions(case, limit, VERDICTS_MOST, caller, tallies, answer_len)
}

/// The questions of a call that makes up to so many verdicts.
fn tallied_questions(
    case: &[u8],
    limit: u64,
    verdicts: u64,
    caller: u64,
    tallies: &Tallies,
    answer_len: usize,
) -> Result<TalliedInput, u64> {
    ask(1, (1..=LIMIT).contains(&limit))?;
    ask(2, answer_len >= ANSWER_BYTES)?;
    let case = read_case(case)?;
    ask(16, caller < CALLERS as u64)?;
    let caller = caller as usize;
    // A sum past 64 bits is past the bound too.
    let sum = tallies[caller].checked_add(verdicts * limit);
    ask(9, sum.is_some_and(|sum| sum <= TALLY_MOST))?;
    Ok((case, caller))
}

fn fits_questions(case: &[u8], volume: &[u8]) -> Result<(Case, Vec<VolumeNode>), u64> {
    Ok((read_case(case)?, read_volume(volume)?))
}

type ResultInput = (Vec<SelectionNode>, Vec<VolumeNode>, Vec<usize>);

fn result_questions(
    case: &[u8],
    selection: u64,
    volume: &[u8],
    list: &[u8],
) -> Result<ResultInput, u64> {
    let case = read_case(case)?;
    let volume = read_volume(volume)?;
    let selection = chosen(&case, selection)?;
    let list = read_list(list).ok_or(11u64)?;
    ask(
        11,
        list.len() == case.positions && list.iter().all(|&v| v < volume.len()),
    )?;
    Ok((selection, volume, list))
}

type NodesInput = (Vec<SelectionNode>, Vec<VolumeNode>, usize);

fn nodes_questions(
    case: &[u8],
    selection: u64,
    volume: &[u8],
    position: u64,
    answer_len: usize,
) -> Result<NodesInput, u64> {
    ask(2, answer_len >= ANSWER_BYTES)?;
    let case = read_case(case)?;
    let volume = read_volume(volume)?;
    let selection = chosen(&case, selection)?;
    ask(12, (1..=case.positions as u64).contains(&position))?;
    let holder = holder(&selection, position as usize).ok_or(12u64)?;
    Ok((selection, volume, holder))
}

fn paths_questions(case: &[u8], selection: u64) -> Result<(Case, Vec<SelectionNode>), u64> {
    let case = read_case(case)?;
    let selection = chosen(&case, selection)?;
    Ok((case, selection))
}

type LayoutInput = (Case, Vec<SelectionNode>, Vec<usize>);

fn layout_questions(
    case: &[u8],
    selection: u64,
    list: &[u8],
    table_len: usize,
) -> Result<LayoutInput, u64> {
    ask(2, table_len >= TABLE_RECORDS)?;
    let case = read_case(case)?;
    let selection = chosen(&case, selection)?;
    let list = read_list(list).ok_or(13u64)?;
    ask(
        13,
        is_embedding(&selection, &outline_as_volume(&case.outline), &list),
    )?;
    Ok((case, selection, list))
}

fn upgrade_questions(case: &[u8], answer_len: usize) -> Result<OldCase, u64> {
    ask(2, answer_len >= ANSWER_BYTES)?;
    read_old_case(case)
}

fn downgrade_questions(case: &[u8], answer_len: usize) -> Result<OldCase, u64> {
    ask(2, answer_len >= ANSWER_BYTES)?;
    let case = read_case(case)?;
    // "15, going back, the set has more than one selection; decided after all
    // questions on the case"; "15 is also given for a figure that is not 0"
    old_case(&case).ok_or(15)
}

fn normalise_questions(case: &[u8], answer_len: usize) -> Result<Case, u64> {
    ask(2, answer_len >= ANSWER_BYTES)?;
    read_case(case)
}

/// Question 12, as far as it is about the selection.
fn chosen(case: &Case, selection: u64) -> Result<Vec<SelectionNode>, u64> {
    case.selection(selection).cloned().ok_or(12)
}

/// "'Not included' writes the volume's section to the front of the answer
/// buffer. The result follows from the byte after the last record, as a count
/// k and k node numbers." At most 2 + 6 x 1,009 + 2 + 16 bytes.
fn write_trial(case: &Case, trial: &Trial, answer: &mut [u8]) {
    let volume = trial.volume(&case.outline);
    let mut at = write_section(volume.iter().map(volume_row), answer);
    let result = own_result(case, trial);
    put(answer, &mut at, result.len());
    for v in result {
        put(answer, &mut at, v);
    }
}

/// "The answer buffer's front gets the shortened selection's section, [...] then a count and the
/// struck original numbers in striking order": at most 2 + 10 x 16 + 2 bytes.
fn write_shortened(shortened: &Shortened, answer: &mut [u8]) {
    let mut at = write_section(shortened.left.iter().map(selection_row), answer);
    put(answer, &mut at, shortened.struck.len());
    for &number in &shortened.struck {
        put(answer, &mut at, number);
    }
}

/// "each at the front of an answer buffer": at most 1,846 bytes, with 64 records
/// and nine times 16; a case that is moved has 712 at most.
fn write_case(case: Result<Vec<u8>, u64>, answer: &mut [u8]) -> CountAnswer {
    match case {
        Ok(bytes) => {
            answer[..bytes.len()].copy_from_slice(&bytes);
            CountAnswer {
                refused: 0,
                count: bytes.len() as u64,
            }
        }
        Err(refused) => CountAnswer {
            refused,
            ..Default::default()
        },
    }
}

/// Writes a section to the front, and gives the place of the byte after it.
fn write_section<const N: usize>(
    rows: impl ExactSizeIterator<Item = [u16; N]>,
    answer: &mut [u8],
) -> usize {
    let section = section_bytes(rows);
    answer[..section.len()].copy_from_slice(&section);
    section.len()
}

/// Writes one field and steps past it.
fn put(answer: &mut [u8], at: &mut usize, field: usize) {
    answer[*at..*at + 2].copy_from_slice(&(field as u16).to_le_bytes());
    *at += 2;
}

/// "It fits the outline if its root has the outline root's label, every path
/// of labels from its root is a path of the outline, and each node on a path s
/// has at least one child on path t for every strong edge from s to t."
fn volume_fits(outline: &[OutlineNode], volume: &[VolumeNode]) -> bool {
    if volume[0].label != outline[0].label {
        return false;
    }
    let mut on_path = vec![0; volume.len()];
    let mut children_on = vec![0u64; volume.len()];
    for v in 1..volume.len() {
        let s = on_path[volume[v].parent];
        let step = (1..outline.len())
            .find(|&t| outline[t].parent == s && outline[t].label == volume[v].label);
        match step {
            Some(t) => {
                on_path[v] = t;
                children_on[volume[v].parent] |= 1 << t;
            }
            None => return false,
        }
    }
    let strong = strong_children(outline);
    (0..volume.len()).all(|v| strong[on_path[v]] & !children_on[v] == 0)
}

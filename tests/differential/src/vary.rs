//! Many calls made of few drawn vectors: another call on the same case, in either form, numbers and figures
//! at their bounds, damaged bytes and sets, lengths of all kinds. Drawing a vector takes far longer than altering
//! one.

use crate::lent::LENT_MOST;
use reference::calls::{ANSWER_BYTES, CALLERS, STOPPED, TABLE_RECORDS, TALLY_MOST, VERDICTS_MOST};
use reference::embedding::{has, Shape};
use reference::generate::Prng;
use reference::old::{old_case, read_old_case};
use reference::records::{holder, read_case, read_volume, Case, FIGURE_MOST};
use reference::trials::{each_placement, lay_out};
use reference::vectors::{
    Vector, DOWNGRADE, FITS, IS_RESULT, LAYOUT, MINIMISE, NODES_AT, NORMALISE, PATHS, UPGRADE,
    VERDICT,
};

const CALLS: [u32; 10] = [
    VERDICT, FITS, IS_RESULT, NODES_AT, PATHS, LAYOUT, UPGRADE, DOWNGRADE, MINIMISE, NORMALISE,
];
/// A limit below which the reference is quick on any case, and one where it makes many verdicts.
const QUICK: u64 = 60;
const QUICK_ORDER: u64 = 8;

/// One variation of a drawn vector. What it does not have is taken from the others drawn.
pub fn vary(prng: &mut Prng, drawn: &[Vector], index: usize) -> Vector {
    let mut vector = drawn[index].clone();
    if prng.percent(60) {
        vector = for_call(prng, drawn, vector);
    }
    let quick = if vector.call == MINIMISE {
        QUICK_ORDER
    } else {
        QUICK
    };
    vector.limit = 1 + prng.draw() % [1, 3, 10, QUICK][prng.below(4)].min(quick);
    if prng.percent(30) {
        number(prng, &mut vector);
    }
    if prng.percent(10) {
        vector.length = length(prng);
    }
    if prng.percent(30) {
        damage(prng, &mut vector);
    }
    if prng.percent(2) {
        noise(prng, &mut vector);
    }
    if prng.below(2_000) == 0 {
        lengthen(prng, &mut vector);
    }
    if vector.limit > quick && slow(&vector, quick) {
        vector.limit = quick;
    }
    vector
}

/// The same case through any of the calls, with a document and a list that often suit it.
fn for_call(prng: &mut Prng, drawn: &[Vector], vector: Vector) -> Vector {
    let call = CALLS[prng.below(CALLS.len())];
    let least = if call == LAYOUT {
        TABLE_RECORDS
    } else {
        ANSWER_BYTES
    };
    let mut vector = Vector {
        call,
        selection: 1,
        position: prng.between(1, 2) as u64,
        tally: prng.draw() % TALLY_MOST,
        caller: prng.below(CALLERS) as u64,
        length: least as u64 + [0, 0, 1, 904][prng.below(4)],
        ..vector
    };
    if prng.percent(97) {
        vector.case = in_form(prng, call, &vector.case);
    }
    let Ok(case) = read_case(&vector.case) else {
        return vector;
    };
    vector.selection = any_pattern(prng, &case);
    vector.position = prng.between(1, case.positions) as u64;
    let takes = |calls: &[u32]| calls.contains(&call);
    if takes(&[FITS, IS_RESULT, NODES_AT]) && (vector.volume.is_empty() || prng.percent(30)) {
        vector.volume = document(prng, drawn, &case);
    }
    if call == IS_RESULT {
        vector.list = result(prng, &case, &vector);
    } else if call == LAYOUT {
        vector.list = fields(&placement(prng, &case, vector.selection));
    }
    vector
}

/// The case in the form that the call takes, with one member and no figures where it is moved, but for some
/// that are to go back; as it is where it is not accepted in either form.
fn in_form(prng: &mut Prng, call: u32, case: &[u8]) -> Vec<u8> {
    if let Ok(old) = read_old_case(case) {
        return match call {
            UPGRADE => case.to_vec(),
            _ => old.with_set_of_one().bytes(),
        };
    }
    let moved = call == UPGRADE || call == DOWNGRADE && prng.percent(70);
    let Some(mut read) = read_case(case).ok().filter(|_| moved) else {
        return case.to_vec();
    };
    let member = prng.below(read.set.len());
    read.set = vec![read.set.swap_remove(member)];
    if call == UPGRADE || prng.percent(80) {
        for node in read.first.iter_mut().chain(&mut read.set[0]) {
            node.figure = 0;
        }
    }
    match old_case(&read).filter(|_| call == UPGRADE) {
        Some(old) => old.bytes(),
        None => read.bytes(),
    }
}

/// The number of the first pattern, or as often that of a member.
fn any_pattern(prng: &mut Prng, case: &Case) -> u64 {
    let member = prng.between(2, 1 + case.set.len()) as u64;
    [1, member][prng.below(2)]
}

/// A document of a drawn vector, or the canonical document of a placement of any pattern.
fn document(prng: &mut Prng, drawn: &[Vector], case: &Case) -> Vec<u8> {
    let other = &drawn[prng.below(drawn.len())].volume;
    if !other.is_empty() && prng.percent(40) {
        return other.clone();
    }
    let number = any_pattern(prng, case);
    let places = placement(prng, case, number);
    if places.is_empty() {
        return other.clone();
    }
    let pattern = case.selection(number).unwrap_or(&case.first);
    let nodes = lay_out(&case.outline, pattern, &places).volume(&case.outline);
    let mut numbers = vec![nodes.len()];
    for node in &nodes {
        numbers.extend([node.parent, node.label.into(), node.figure.into()]);
    }
    fields(&numbers)
}

/// One of the first placements, or nothing where there is none.
fn placement(prng: &mut Prng, case: &Case, number: u64) -> Vec<usize> {
    let pattern = case.selection(number).unwrap_or(&case.first);
    let most = [1, 4, 40][prng.below(3)];
    let mut left = prng.below(most);
    let mut found = Vec::new();
    each_placement(&case.outline, pattern, |places| {
        found = places.to_vec();
        left = left.saturating_sub(1);
        left > 0
    });
    found
}

/// For each position a node that it has in some result, or any node.
fn result(prng: &mut Prng, case: &Case, vector: &Vector) -> Vec<u8> {
    let Ok(document) = read_volume(&vector.volume) else {
        return vector.list.clone();
    };
    let pattern = case.selection(vector.selection).unwrap_or(&case.first);
    let images = Shape::new(pattern).images(&document);
    let mut list = Vec::new();
    for position in 1..=case.positions {
        let node = holder(pattern, position).unwrap_or(0);
        let room: Vec<usize> = (0..document.len())
            .filter(|&v| has(images[v], node))
            .collect();
        let any = prng.below(document.len());
        list.push(match prng.one_of(&room) {
            Some(&found) if prng.percent(90) => found,
            _ => any,
        });
    }
    fields(&list)
}

fn fields(numbers: &[usize]) -> Vec<u8> {
    numbers
        .iter()
        .flat_map(|&number| (number as u16).to_le_bytes())
        .collect()
}

/// One number at a bound, beyond it, or anything.
fn number(prng: &mut Prng, vector: &mut Vector) {
    let any = prng.draw() >> prng.below(64);
    let one_of = |prng: &mut Prng, numbers: &[u64]| numbers[prng.below(numbers.len())];
    let past = u64::from(u32::MAX) + 2;
    match prng.below(6) {
        0 => {
            let bounds = [0, 1, 2, 999_999, 1_000_000, 1_000_001, past, u64::MAX, any];
            vector.limit = one_of(prng, &bounds);
        }
        1 => {
            let verdicts = if vector.call == MINIMISE {
                VERDICTS_MOST
            } else {
                1
            };
            let asked = vector.limit.saturating_mul(verdicts);
            let room = TALLY_MOST.saturating_sub(asked);
            let bounds = [room, room + 1, room.saturating_sub(1), 0, TALLY_MOST];
            let wide = [
                u64::MAX - asked,
                (u64::MAX - asked).wrapping_add(1),
                u64::MAX,
                any,
            ];
            vector.tally = one_of(prng, &[&bounds[..], &wide[..]].concat());
        }
        2 => {
            let last = read_case(&vector.case).map_or(1, |case| 1 + case.set.len() as u64);
            let bounds = [0, 1, 2, last, last + 1, 9, 10, 65_537, past, u64::MAX, any];
            vector.selection = one_of(prng, &bounds);
        }
        3 => vector.caller = caller(prng, any),
        4 => vector.position = one_of(prng, &[0, 1, 2, 3, 8, 9, 65_537, past, u64::MAX, any]),
        _ => vector.length = length(prng),
    }
}

/// Up to one past the last, at the bounds of widths, one of the eight with a higher bit set, or the number
/// given.
pub fn caller(prng: &mut Prng, any: u64) -> u64 {
    let low = prng.below(CALLERS + 1) as u64;
    let high = low | 1 << prng.between(3, 63);
    let bounds = [low, low, high, high, 7, 8, 9, 255, 256, u64::MAX, any];
    bounds[prng.below(bounds.len())]
}

/// How much is lent: around both least lengths, little, or anything up to the most.
fn length(prng: &mut Prng) -> u64 {
    let any = prng.below(LENT_MOST + 1);
    let short = prng.below(10_000);
    let lengths = [
        0, 1, 1_023, 1_024, 1_025, 4_096, 8_191, 8_192, 8_193, short, short,
    ];
    let chosen = lengths[prng.below(lengths.len())];
    (if prng.below(200) == 0 { any } else { chosen }) as u64
}

/// One to four strokes on one of the byte strings that the call takes.
fn damage(prng: &mut Prng, vector: &mut Vector) {
    let (volume, list) = match vector.call {
        FITS | NODES_AT => (true, false),
        IS_RESULT => (true, true),
        LAYOUT => (false, true),
        _ => (false, false),
    };
    let bytes = match prng.below(6) {
        0 if volume => &mut vector.volume,
        1 if list => &mut vector.list,
        2 => return damage_set(prng, &mut vector.case),
        3 if volume => return volume_figure(prng, &mut vector.volume),
        3 | 4 => return case_figure(prng, &mut vector.case),
        _ => &mut vector.case,
    };
    for _ in 0..prng.between(1, 4) {
        stroke(prng, bytes);
    }
}

/// Another figure at a node of an accepted case.
fn case_figure(prng: &mut Prng, case: &mut Vec<u8>) {
    let Ok(mut read) = read_case(case) else {
        return stroke(prng, case);
    };
    let member = prng.below(read.set.len());
    let nodes = match prng.below(2) {
        0 => &mut read.first,
        _ => &mut read.set[member],
    };
    let node = prng.below(nodes.len());
    nodes[node].figure = figure(prng, nodes[node].figure);
    *case = read.bytes();
}

/// Another figure at a node of a document that has one.
fn volume_figure(prng: &mut Prng, volume: &mut Vec<u8>) {
    let nodes = volume.len().saturating_sub(2) / 6;
    if nodes == 0 {
        return stroke(prng, volume);
    }
    // A record's last field.
    let place = 2 + 6 * prng.below(nodes) + 4;
    let old = u16::from_le_bytes([volume[place], volume[place + 1]]);
    let new = figure(prng, old);
    volume[place..place + 2].copy_from_slice(&new.to_le_bytes());
}

/// A neighbour of the one there is, or one at the bounds.
fn figure(prng: &mut Prng, old: u16) -> u16 {
    let figures = [
        old.wrapping_add(1),
        old.wrapping_sub(1),
        0,
        1,
        FIGURE_MOST - 1,
        FIGURE_MOST,
        FIGURE_MOST + 1,
        u16::MAX,
    ];
    figures[prng.below(figures.len())]
}

/// A member fewer, more, empty or damaged, eight or nine of them, or none. Mostly the count tells how
/// many there are, so that the case stays whole.
fn damage_set(prng: &mut Prng, case: &mut Vec<u8>) {
    let Some((at, mut members)) = set_of(case) else {
        return stroke(prng, case);
    };
    let before = members.len();
    let chosen = prng.below(before);
    match prng.below(6) {
        0 => drop(members.remove(chosen)),
        1 => members.insert(chosen, members[prng.below(before)].clone()),
        2 => members[chosen] = vec![0, 0],
        3 => stroke(prng, &mut members[chosen]),
        4 => {
            let count = prng.between(8, 9);
            members = members.iter().cycle().take(count).cloned().collect();
        }
        _ => members.clear(),
    }
    let others = [0, before, members.len() + 1, 9, 257, 65_535];
    let count = if prng.percent(75) {
        members.len()
    } else {
        others[prng.below(others.len())]
    };
    case.truncate(at);
    case.extend(fields(&[count]));
    case.extend(members.concat());
}

/// Where the set of an accepted case begins, and the sections of its members.
pub fn set_of(case: &[u8]) -> Option<(usize, Vec<Vec<u8>>)> {
    let read = read_case(case).ok()?;
    let at = 4 + 6 * read.outline.len() + 10 * read.first.len();
    let mut rest = &case[at + 2..];
    let mut sections = Vec::new();
    for member in &read.set {
        let (section, after) = rest.split_at(2 + 10 * member.len());
        sections.push(section.to_vec());
        rest = after;
    }
    Some((at, sections))
}

fn stroke(prng: &mut Prng, bytes: &mut Vec<u8>) {
    let value = [0, 1, 2, 3, 255, prng.draw() as u8][prng.below(6)];
    if bytes.len() < 2 {
        bytes.push(value);
        return;
    }
    let at = prng.below(bytes.len());
    let (field, other) = (at / 2 * 2, prng.below(bytes.len()) / 2 * 2);
    match prng.below(24) {
        0 => bytes.insert(at, value),
        1 => drop(bytes.remove(at)),
        2 => bytes.truncate(at),
        3 => drop(bytes.drain(field..(field + 2).min(bytes.len()))),
        4 => bytes.push(value),
        5 => bytes[0] = bytes[0].wrapping_add(value),
        6..=9 if field.max(other) + 1 < bytes.len() => {
            bytes.copy_within(field..field + 2, other);
        }
        // Low bytes hold most numbers, so the field stays near its range.
        10..=18 => bytes[field] = value,
        _ => bytes[at] = value,
    }
}

/// A case, document or list of fields that mean nothing, the counts small.
fn noise(prng: &mut Prng, vector: &mut Vector) {
    let bound = [2, 3, 5, 17, 65_536][prng.below(5)];
    let most = [4, 30, 300][prng.below(3)];
    let count = prng.below(most);
    let numbers: Vec<usize> = (0..count).map(|_| prng.below(bound)).collect();
    let mut bytes = fields(&numbers);
    bytes.truncate(bytes.len() - prng.below(2).min(bytes.len()));
    match prng.below(3) {
        0 => vector.volume = bytes,
        1 => vector.list = bytes,
        _ => vector.case = bytes,
    }
}

/// One byte string made long: the same again, or zeros, behind it. A document may announce all of it, and
/// a case's set, to which zeros are empty members.
fn lengthen(prng: &mut Prng, vector: &mut Vector) {
    let most = [65_535, 65_536, 65_537, 100_000, 262_142][prng.below(5)];
    let again = prng.percent(50);
    let case = vector.case.len();
    let set = set_of(&vector.case).filter(|_| !again && prng.percent(50));
    let bytes = match prng.below(3) {
        0 => &mut vector.case,
        1 => &mut vector.volume,
        _ => &mut vector.list,
    };
    let whole = bytes.clone();
    while again && !whole.is_empty() && bytes.len() < most {
        bytes.extend(&whole);
    }
    bytes.resize(most, 0);
    if prng.percent(50) && vector.volume.len() == most {
        let count = (most - 2) / 6;
        vector.volume[..2].copy_from_slice(&(count as u16).to_le_bytes());
    }
    if let Some((at, members)) = set.filter(|_| vector.case.len() == most) {
        let count = members.len() + (most - case) / 2;
        vector.case[at..at + 2].copy_from_slice(&(count as u16).to_le_bytes());
    }
}

/// Whether many trials pass, so that a great limit takes long. Where all verdicts of an order together
/// try less than one may, none of them is stopped there.
fn slow(vector: &Vector, quick: u64) -> bool {
    let (mut tallies, mut answer) = ([0; CALLERS], [0; ANSWER_BYTES]);
    match vector.call {
        VERDICT => {
            let got = reference::verdict(&vector.case, quick, 0, &mut tallies, &mut answer);
            got.kind == STOPPED
        }
        MINIMISE => {
            let got = reference::minimise(&vector.case, quick, 0, &mut tallies, &mut answer);
            got.tried >= quick
        }
        _ => false,
    }
}

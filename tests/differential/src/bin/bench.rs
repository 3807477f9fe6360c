//! `bench [ROUNDS]`: the library and the reference, timed on the same calls in the same run; prints a
//! table in Markdown. Each time is the least of ROUNDS (default 15), the two taking turns; a round
//! repeats the call for 4 ms at least. Sets have one member; where a row has the same with a larger set,
//! those that follow have it, and how much longer the library takes. An order stands after one verdict on
//! the same case, and how much longer it takes beside that. All figures are 0, unless a row says that it has figures.

#![forbid(unsafe_code)]

use cadwezin::{ffi, NodeRecord, Tallies, ANSWER_BYTES, FIGURE_MOST};
use differential::compare::compare;
use differential::lent::Loans;
use differential::vary::set_of;
use reference::generate::{cases, layouts, normals, random, strikes, Seed};
use reference::old::old_case;
use reference::records::read_case;
use reference::vectors::{
    Vector, DOWNGRADE, FITS, IS_RESULT, LAYOUT, MINIMISE, NODES_AT, NORMALISE, PATHS, UPGRADE,
    VERDICT,
};
use std::hint::black_box;
use std::process::ExitCode;
use std::time::{Duration, Instant};

const ROUND: Duration = Duration::from_millis(4);
/// Whose all verdicts are.
const CALLER: usize = 0;

fn main() -> ExitCode {
    let word = std::env::args().nth(1);
    let rounds = word.map_or(Some(15), |word| word.parse::<u32>().ok());
    let Some(rounds) = rounds.filter(|&rounds| rounds > 0) else {
        eprintln!("usage: bench [ROUNDS]");
        return ExitCode::from(2);
    };
    println!("| call | input | library | reference | ratio | to one |");
    println!("|---|---|---:|---:|---:|---:|");
    let mut one = f64::NAN;
    for row in rows() {
        if let Err(difference) = row.compared() {
            eprintln!("bench: {}: {difference}", row.input);
            return ExitCode::FAILURE;
        }
        let (ours, theirs) = row.timed(rounds);
        let to_one = if row.larger {
            format!("{:.1}", ours / one)
        } else {
            one = ours;
            String::new()
        };
        println!(
            "| {} | {} | {} | {} | {:.1} | {to_one} |",
            row.call,
            row.input,
            written(ours),
            written(theirs),
            theirs / ours
        );
    }
    println!();
    println!("Each time is one call's mean in the best of {rounds} rounds, library and reference taking turns. Buffers and tables are allocated once and lent again as the last call left them; nothing is cleared beforehand, no cache either. To one is the library's time beside that of the nearest row above whose set has one member, and of an order beside that of the one verdict above it. Unless another thing is said, seven of eight members end in a label that is nowhere, and the last is the one of that row.");
    ExitCode::SUCCESS
}

/// Seconds, in a unit that leaves few digits.
fn written(seconds: f64) -> String {
    let units = [(1.0, "s"), (1e-3, "ms"), (1e-6, "µs"), (1e-9, "ns")];
    let fitting = units.iter().find(|(unit, _)| seconds >= *unit);
    let (unit, name) = fitting.unwrap_or(&units[3]);
    let number = seconds / unit;
    let digits = if number < 10.0 { 1 } else { 0 };
    format!("{number:.digits$} {name}")
}

/// One row of the table: calls that are timed together, their mean taken.
struct Row {
    call: &'static str,
    input: String,
    vectors: Vec<Vector>,
    /// Whether it is the nearest row before that is not, with a larger set or as an order.
    larger: bool,
}

impl Row {
    /// Both give the same on every vector; if not, what differs.
    fn compared(&self) -> Result<(), String> {
        let mut loans = Loans::default();
        self.vectors
            .iter()
            .try_for_each(|vector| compare(vector, &mut loans).map(drop))
    }

    /// Seconds for one call of the library and one of the reference.
    fn timed(&self, rounds: u32) -> (f64, f64) {
        let (mut ours, mut theirs) = (Ours::new(), Theirs::new());
        let mut best = (f64::MAX, f64::MAX);
        for _ in 0..rounds {
            best.0 = best.0.min(self.round(|vector| ours.call(vector)));
            best.1 = best.1.min(self.round(|vector| theirs.call(vector)));
        }
        best
    }

    /// Seconds for one call, in the mean of a round.
    fn round(&self, mut call: impl FnMut(&Vector)) -> f64 {
        let start = Instant::now();
        let mut calls = 0;
        let mut batch = 1;
        while start.elapsed() < ROUND {
            for _ in 0..batch {
                self.vectors.iter().for_each(&mut call);
            }
            calls += batch * self.vectors.len();
            batch *= 2;
        }
        start.elapsed().as_secs_f64() / calls as f64
    }
}

struct Ours {
    tallies: Tallies,
    answer: Vec<u8>,
    table: Vec<NodeRecord>,
}

impl Ours {
    fn new() -> Self {
        Ours {
            tallies: Tallies::default(),
            answer: vec![0; 10_000],
            table: vec![NodeRecord::default(); 2_000],
        }
    }

    fn call(&mut self, vector: &Vector) {
        let v = black_box(vector);
        let (answer, table) = (&mut self.answer, &mut self.table);
        match v.call {
            VERDICT => {
                let (caller, tallies) = (CALLER as u64, &mut self.tallies);
                tallies.counts[CALLER] = v.tally;
                black_box(ffi::verdict(&v.case, v.limit, caller, tallies, answer));
            }
            MINIMISE => {
                let (caller, tallies) = (CALLER as u64, &mut self.tallies);
                tallies.counts[CALLER] = v.tally;
                black_box(ffi::minimise(&v.case, v.limit, caller, tallies, answer));
            }
            FITS => drop(black_box(ffi::fits(&v.case, &v.volume))),
            IS_RESULT => {
                black_box(ffi::is_result(&v.case, v.selection, &v.volume, &v.list));
            }
            NODES_AT => {
                let got = ffi::nodes_at(&v.case, v.selection, &v.volume, v.position, answer);
                black_box(got);
            }
            PATHS => drop(black_box(ffi::paths(&v.case, v.selection))),
            UPGRADE => drop(black_box(ffi::upgrade(&v.case, answer))),
            DOWNGRADE => drop(black_box(ffi::downgrade(&v.case, answer))),
            NORMALISE => drop(black_box(ffi::normalise(&v.case, answer))),
            _ => drop(black_box(ffi::layout(&v.case, v.selection, &v.list, table))),
        }
    }
}

struct Theirs {
    tallies: reference::Tallies,
    answer: Vec<u8>,
    table: Vec<reference::NodeRecord>,
}

impl Theirs {
    fn new() -> Self {
        Theirs {
            tallies: reference::Tallies::default(),
            answer: vec![0; 10_000],
            table: vec![reference::NodeRecord::default(); 2_000],
        }
    }

    fn call(&mut self, vector: &Vector) {
        let v = black_box(vector);
        let (answer, table) = (&mut self.answer, &mut self.table);
        match v.call {
            VERDICT => {
                let (caller, tallies) = (CALLER as u64, &mut self.tallies);
                tallies[CALLER] = v.tally;
                black_box(reference::verdict(
                    &v.case, v.limit, caller, tallies, answer,
                ));
            }
            MINIMISE => {
                let (caller, tallies) = (CALLER as u64, &mut self.tallies);
                tallies[CALLER] = v.tally;
                black_box(reference::minimise(
                    &v.case, v.limit, caller, tallies, answer,
                ));
            }
            FITS => drop(black_box(reference::fits(&v.case, &v.volume))),
            IS_RESULT => {
                let got = reference::is_result(&v.case, v.selection, &v.volume, &v.list);
                black_box(got);
            }
            NODES_AT => {
                let got = reference::nodes_at(&v.case, v.selection, &v.volume, v.position, answer);
                black_box(got);
            }
            PATHS => drop(black_box(reference::paths(&v.case, v.selection))),
            UPGRADE => drop(black_box(reference::upgrade(&v.case, answer))),
            DOWNGRADE => drop(black_box(reference::downgrade(&v.case, answer))),
            NORMALISE => drop(black_box(reference::normalise(&v.case, answer))),
            _ => {
                let got = reference::layout(&v.case, v.selection, &v.list, table);
                black_box(got);
            }
        }
    }
}

fn rows() -> Vec<Row> {
    let all = [
        questions(),
        verdicts(),
        documents(),
        others(),
        moves(),
        normal_forms(),
        orders(),
        drawn(),
    ];
    all.into_iter().flatten().collect()
}

fn row(call: &'static str, input: &str, vectors: Vec<Vector>) -> Row {
    Row {
        call,
        input: input.to_string(),
        vectors,
        larger: false,
    }
}

fn larger_row(call: &'static str, input: &str, vectors: Vec<Vector>) -> Row {
    Row {
        larger: true,
        ..row(call, input, vectors)
    }
}

/// A row with sets of one, and the same with sets of eight.
fn both(call: &'static str, input: &str, vectors: Vec<Vector>) -> [Row; 2] {
    let eight = vectors.iter().map(with_eight).collect();
    let input_of_eight = format!("{input}, a set of eight");
    [
        row(call, input, vectors),
        larger_row(call, &input_of_eight, eight),
    ]
}

/// The same call with seven members before the only one. They are as large, and their last node, a
/// leaf, has a label that is nowhere: so each is tried to its end, and no answer changes. A case that goes
/// back to the old form stays, since it has one member.
fn with_eight(vector: &Vector) -> Vector {
    if vector.call == DOWNGRADE {
        return vector.clone();
    }
    with_set(vector, |member| {
        let mut set: Vec<Vec<u8>> = (0..7u16).map(|i| ending_in(member, NOWHERE + i)).collect();
        set.push(member.to_vec());
        set
    })
}

const NOWHERE: u16 = 61_000;

/// A pattern's section whose last record has another label.
fn ending_in(section: &[u8], label: u16) -> Vec<u8> {
    let mut section = section.to_vec();
    let at = section.len() - 8;
    section[at..at + 2].copy_from_slice(&label.to_le_bytes());
    section
}

/// The same call with a set of one: the member that it is about, or the last. A refused one stays.
fn alone(vector: &Vector) -> Vector {
    with_set(vector, |member| vec![member.to_vec()])
}

/// The same call with a set made of one member, of which that member is the last.
fn with_set(vector: &Vector, make: impl Fn(&[u8]) -> Vec<Vec<u8>>) -> Vector {
    let mut made = vector.clone();
    let Some((at, members)) = set_of(&vector.case) else {
        return made;
    };
    let about = vector.selection.checked_sub(2).map(|index| index as usize);
    let member = about.and_then(|index| members.get(index));
    let set = make(member.unwrap_or(&members[members.len() - 1]));
    made.case.truncate(at);
    made.case.extend(fields(&[set.len() as u16]));
    made.case.extend(set.concat());
    if member.is_some() {
        made.selection = 1 + set.len() as u64;
    }
    made
}

/// What the questions cost: refusals by the first and by the last, and reading the largest case.
fn questions() -> Vec<Row> {
    let largest = in_itself(&line(1), star(15, 8));
    let mut spoilt = document(&line_document());
    let end = spoilt.len() - 2;
    spoilt[end - 2..end].fill(0);
    let too_good = with_figures(&line_document(), |i| if i == 1_023 { 2_001 } else { i });
    let mut asking = largest.clone();
    let end = asking.len();
    asking[end - 2..].copy_from_slice(&2_001u16.to_le_bytes());
    let full = Vector {
        tally: u64::MAX,
        ..verdict(largest.clone(), 1)
    };
    let nine = case(&line(1), &star(15, 8), &vec![star(15, 8); 9]);
    let empty = case(&line(1), &star(15, 8), &vec![vec![]; 32_493]);
    let one_node = document(&[[0, 1, 0]]);
    let mut rows = vec![
        row("verdict", "limit 0: refused 1", vec![verdict(vec![], 0)]),
        row("verdict", "no bytes: refused 3", vec![verdict(vec![], 1)]),
        row(
            "fits",
            "65,536 bytes, 32,493 empty members: refused 4",
            vec![of_document(FITS, &empty, one_node.clone(), &[])],
        ),
        row(
            "fits",
            "64 + 16 nodes, nine members of 16: refused 14",
            vec![of_document(FITS, &nine, one_node.clone(), &[])],
        ),
    ];
    rows.extend(both(
        "verdict",
        "64 + 16 + 16 nodes, tally too great: refused 9",
        vec![full],
    ));
    rows.push(row(
        "fits",
        "1,024 nodes, the last of label 0: refused 10",
        vec![of_document(FITS, &largest, spoilt, &[])],
    ));
    rows.push(row(
        "fits",
        "1,024 nodes, the last of figure 2,001: refused 17",
        vec![of_document(FITS, &largest, document(&too_good), &[])],
    ));
    rows.push(row(
        "verdict",
        "64 + 16 + 16 nodes, the last of figure 2,001: refused 17",
        vec![verdict(asking, 1)],
    ));
    rows.extend(both(
        "fits",
        "64 + 16 + 16 nodes, a document of 1: accepted",
        vec![of_document(FITS, &largest, one_node, &[])],
    ));
    rows
}

/// Verdicts, of one trial and of 1,000.
fn verdicts() -> Vec<Row> {
    let mut nowhere = star(14, 1);
    nowhere.push([0, 60_000, 1, 0, 0]);
    let none = vec![verdict(case(&line(0), &nowhere, &[star(0, 1)]), 1_000)];
    let mut rows = Vec::new();
    rows.extend(both(
        "verdict",
        "E6: 2 trials of 3 nodes",
        vec![verdict(e6(), 1_000_000)],
    ));
    rows.extend(both(
        "verdict",
        "1,000 trials of 946 nodes",
        vec![verdict(in_itself(&line(1), star(15, 1)), 1_000)],
    ));
    rows.extend(both(
        "verdict",
        "1,000 trials of few nodes, one below another",
        vec![verdict(in_itself(&line(0), chain(15)), 1_000)],
    ));
    rows.extend(by_turns("6 nodes", &flat(8), [[0, 0, 0, 0, 0]; 3].to_vec()));
    rows.extend(by_turns("some 600 nodes", &line(0)[..55], low()));
    rows.extend(both(
        "verdict",
        "63^14 partial placements, none whole",
        none,
    ));
    rows.extend(both(
        "verdict",
        "1,000 trials of 946 nodes, with figures",
        vec![verdict(in_itself(&line(1), asking(star(15, 1))), 1_000)],
    ));
    rows.extend(both(
        "verdict",
        "1,000 trials of few nodes, one below another, with figures",
        vec![verdict(in_itself(&line(0), asking(chain(15))), 1_000)],
    ));
    rows.extend(by_turns(
        "some 600 nodes, with figures",
        &line(0)[..55],
        asking(low()),
    ));
    rows
}

/// The same pattern, each node asking for another figure.
fn asking(mut pattern: Vec<[u16; 5]>) -> Vec<[u16; 5]> {
    for (node, figure) in pattern.iter_mut().zip((0..=FIGURE_MOST).rev()) {
        node[4] = figure;
    }
    pattern
}

/// The same document, with a figure for each node.
fn with_figures(records: &[[u16; 3]], figure: fn(u16) -> u16) -> Vec<[u16; 3]> {
    let all = records.iter().zip(0..);
    all.map(|(&[parent, label, _], i)| [parent, label, figure(i)])
        .collect()
}

fn e6() -> Vec<u8> {
    case(
        &[[0, 1, 0], [0, 2, 0], [1, 3, 0]],
        &[[0, 1, 0, 0, 0], [0, 0, 1, 1, 0]],
        &[vec![[0, 1, 0, 0, 0], [0, 0, 0, 1, 0]]],
    )
}

/// A root and so many children.
fn flat(children: u16) -> Vec<[u16; 3]> {
    let mut summary = vec![[0, 1, 0]];
    summary.extend((0..children).map(|child| [0, 20 + child, 0]));
    summary
}

/// Nodes at the bottom of a line of 55, and some that are free.
fn low() -> Vec<[u16; 5]> {
    [
        [[0, 55, 1, 0, 0]; 10].to_vec(),
        [[0, 0, 1, 0, 0]; 3].to_vec(),
    ]
    .concat()
}

/// 1,000 trials over a summary, in which the first pattern has these nodes and a last one, at any child
/// of x. One member asks for any of these children; of two, four and eight each asks for another, so
/// that trial by trial another one passes.
fn by_turns(nodes: &str, summary: &[[u16; 3]], below_root: Vec<[u16; 5]>) -> Vec<Row> {
    const X: u16 = 900;
    const CHILD: u16 = 910;
    let x = summary.len() as u16;
    let mut first = vec![[0, 1, 0, 1, 0]];
    first.extend(below_root);
    let above = first.len() as u16;
    first.extend([[0, X, 0, 0, 0], [above, 0, 0, 0, 0]]);
    let asking = |label: u16| vec![[0, 1, 0, 1, 0], [0, X, 0, 0, 0], [1, label, 0, 0, 0]];
    let over = |children: u16, set: &[Vec<[u16; 5]>]| {
        let mut summary = summary.to_vec();
        summary.push([0, X, 0]);
        summary.extend((0..children).map(|child| [x, CHILD + child, 0]));
        vec![verdict(case(&summary, &first, set), 1_000)]
    };
    let input = format!("1,000 trials of {nodes}");
    let mut rows = vec![row("verdict", &input, over(8, &[asking(0)]))];
    for members in [2, 4, 8] {
        let each: Vec<Vec<[u16; 5]>> = (0..members).map(|child| asking(CHILD + child)).collect();
        let input = format!("{input}, through {members} members by turns");
        rows.push(larger_row("verdict", &input, over(members, &each)));
    }
    rows
}

/// Calls on documents of 1,024 nodes, with patterns of 16 nodes.
fn documents() -> Vec<Row> {
    let case = in_itself(&line(0), chain(15));
    let bush = bush_document();
    let with = |call, document: &[[u16; 3]], list: &[u16]| {
        vec![of_document(call, &case, self::document(document), list)]
    };
    // The upper half of the pattern's nodes ask for the most, which the upper half of the line has.
    let mut asking = chain(15);
    asking[..8]
        .iter_mut()
        .for_each(|node| node[4] = FIGURE_MOST);
    let asking = in_itself(&line(0), asking);
    let half = with_figures(&line_document(), |i| if i < 512 { FIGURE_MOST } else { i });
    let low = with_figures(&line_document(), |i| i);
    let by_figures = |call, document: &[[u16; 3]], list: &[u16]| {
        vec![of_document(call, &asking, self::document(document), list)]
    };
    let mut rows = vec![
        row("fits", "1,024 nodes, yes", with(FITS, &bush, &[])),
        row(
            "fits",
            "1,024 nodes, no by the last",
            with(FITS, &spoilt(&bush), &[]),
        ),
        row(
            "is it a result",
            "1,024 nodes, yes",
            with(IS_RESULT, &line_document(), &[0]),
        ),
        row(
            "is it a result",
            "1,024 nodes, no",
            with(IS_RESULT, &line_document(), &[1]),
        ),
    ];
    rows.extend(both(
        "nodes at a position",
        "1,024 nodes",
        with(NODES_AT, &line_document(), &[]),
    ));
    rows.extend([
        row(
            "fits",
            "1,024 nodes with figures, yes",
            by_figures(FITS, &with_figures(&bush, |i| i), &[]),
        ),
        row(
            "is it a result",
            "1,024 nodes with figures, yes",
            by_figures(IS_RESULT, &half, &[0]),
        ),
        row(
            "is it a result",
            "1,024 nodes with figures, no by figures",
            by_figures(IS_RESULT, &low, &[0]),
        ),
    ]);
    rows.extend(both(
        "nodes at a position",
        "1,024 nodes with figures",
        by_figures(NODES_AT, &half, &[]),
    ));
    rows
}

fn others() -> Vec<Row> {
    let paths = Vector {
        call: PATHS,
        selection: 1,
        case: in_itself(&line(1), star(15, 8)),
        ..Vector::default()
    };
    let placement: Vec<u16> = (0..16).map(|q| if q == 0 { 0 } else { 63 }).collect();
    let layout = Vector {
        call: LAYOUT,
        length: 2_000,
        list: fields(&placement),
        ..paths.clone()
    };
    let below: Vec<u16> = (0..16).map(|q| u16::from(q > 0)).collect();
    let filled = Vector {
        case: in_itself(&fan(), star(15, 8)),
        list: fields(&below),
        ..layout.clone()
    };
    let figured = Vector {
        case: in_itself(&line(1), asking(star(15, 8))),
        ..layout.clone()
    };
    vec![
        row("paths", "64 + 16 nodes", vec![paths]),
        row("lay out a trial", "946 nodes", vec![layout]),
        row("lay out a trial", "946 nodes, 930 filled up", vec![filled]),
        row("lay out a trial", "946 nodes, with figures", vec![figured]),
    ]
}

/// A summary of 64 nodes: a child of the root, and its 62 strong children.
fn fan() -> Vec<[u16; 3]> {
    let mut summary = vec![[0, 1, 0], [0, 2, 0]];
    summary.extend((3..65).map(|label| [1, label, 1]));
    summary
}

/// Cases out of the old form and back, the smallest and the largest, and refusals by the last question.
fn moves() -> Vec<Row> {
    let largest = in_itself(&line(1), star(15, 8));
    let mut unheld = old_form(&largest);
    let end = unheld.len() - 8 * 8;
    unheld[end - 2..end].fill(0);
    let two = case(&line(1), &star(15, 8), &vec![star(15, 8); 2]);
    let mut good = largest.clone();
    let end = good.len();
    good[end - 2] = 1;
    let (over, back) = ("old to new", "new to old");
    let nodes = "64 + 16 + 16 nodes";
    vec![
        row(over, "E6", vec![writing(UPGRADE, old_form(&e6()))]),
        row(over, nodes, vec![writing(UPGRADE, old_form(&largest))]),
        row(
            over,
            &format!("{nodes}, a position missing: refused 8"),
            vec![writing(UPGRADE, unheld)],
        ),
        row(back, "E6", vec![writing(DOWNGRADE, e6())]),
        row(back, nodes, vec![writing(DOWNGRADE, largest)]),
        row(
            back,
            "64 + 16 nodes, two members of 16: refused 15",
            vec![writing(DOWNGRADE, two)],
        ),
        row(
            back,
            &format!("{nodes}, the last of figure 1: refused 15"),
            vec![writing(DOWNGRADE, good)],
        ),
    ]
}

fn writing(call: u32, case: Vec<u8>) -> Vector {
    Vector {
        call,
        length: ANSWER_BYTES as u64,
        case,
        ..Vector::default()
    }
}

/// A case with a set of one and figures of 0 as it was written before there were sets.
fn old_form(case: &[u8]) -> Vec<u8> {
    let read = read_case(case).expect("the case is accepted");
    old_case(&read).expect("it goes back").bytes()
}

/// Cases written in one way: E6, and the most nodes there can be, 64 and nine times 16. Labels that fall turn
/// all siblings round; where all nodes of a pattern are alike but for the last, which holds the position, no
/// comparison ends before it.
fn normal_forms() -> Vec<Row> {
    const NODES: &str = "64 + 9 × 16 nodes";
    let one = |input: &str, case| {
        let input = format!("{NODES}, {input}");
        row(ONE_WAY, &input, vec![writing(NORMALISE, case)])
    };
    let (star, line) = (|_| 0, |t: u16| t.saturating_sub(1));
    let by_two = |t: u16| t.saturating_sub(1) / 2;
    let comb = |t: u16| t.saturating_sub(2 - t % 2);
    let rising = |t: u16| 1 + t;
    let falling = |t: u16| 900 - t;
    let same = |_| 7;
    let mut unheld = largest(star, falling);
    let end = unheld.len();
    unheld[end - 4..end - 2].fill(0);
    let drawn = |seed: Seed| -> Vec<Vector> {
        let large = |vector: &Vector| {
            vector.case.len() == unheld.len() && vector.length >= ANSWER_BYTES as u64
        };
        normals(seed, 4_000)
            .into_iter()
            .filter(large)
            .take(200)
            .collect()
    };
    let (plain, figured) = (drawn(Seed::without_figures(1)), drawn(1.into()));
    vec![
        row(ONE_WAY, "E6", vec![writing(NORMALISE, e6())]),
        one("stars, in order", largest(star, rising)),
        one("stars, the other way round", largest(star, falling)),
        one(
            "stars, all but one node of a pattern alike",
            largest(star, same),
        ),
        one("lines", largest(line, falling)),
        one("two by two, the other way round", largest(by_two, falling)),
        one(
            "two by two, all but one node of a pattern alike",
            largest(by_two, same),
        ),
        one("combs, the other way round", largest(comb, falling)),
        one(
            "combs, all but one node of a pattern alike",
            largest(comb, same),
        ),
        row(ONE_WAY, &format!("{NODES}, {} drawn", plain.len()), plain),
        row(
            ONE_WAY,
            &format!("{NODES}, {} drawn with figures", figured.len()),
            figured,
        ),
        one("a position missing: refused 8", unheld),
    ]
}

const ONE_WAY: &str = "one way of writing";

/// 64 nodes and nine times 16, all trees of one shape. The labels are the patterns'; the summary's are those
/// where siblings differ by them, and else rise.
fn largest(parent: fn(u16) -> u16, label: fn(u16) -> u16) -> Vec<u8> {
    let other = |t: u16| {
        if label(1) == label(2) {
            1 + t
        } else {
            label(t)
        }
    };
    let summary: Vec<[u16; 3]> = (0..64).map(|t| [parent(t), other(t), t % 2]).collect();
    let pattern: Vec<[u16; 5]> = (0..16)
        .map(|q| [parent(q), label(q), 0, u16::from(q == 15), 0])
        .collect();
    case(&summary, &pattern, &vec![pattern.clone(); 8])
}

/// Orders of 16 nodes, each after one verdict on the same case, in which the order is the set's only
/// member too: all that may go goes, one leaf after another or as a chain; nothing goes, since nothing is
/// granted or since each verdict is stopped; half of it stays and is tried again after each that goes.
fn orders() -> Vec<Row> {
    let mut granted = vec![[0, 1, 0]];
    granted.extend((2..65).map(|label| [0, label, 1]));
    let mut plain = granted.clone();
    plain.iter_mut().for_each(|node| node[2] = 0);
    let mut half = granted.clone();
    half[1..9].iter_mut().for_each(|node| node[2] = 0);
    let leaves: Vec<[u16; 5]> = (0..16)
        .map(|q| [0, q + 1, 0, u16::from(q == 0), 0])
        .collect();
    let steps: Vec<[u16; 5]> = (0..16u16)
        .map(|q| [q.saturating_sub(1), q + 1, 0, u16::from(q == 0), 0])
        .collect();
    let bottom: Vec<[u16; 5]> = (0..16u16)
        .map(|q| {
            [
                0,
                if q == 0 { 1 } else { 64 },
                u16::from(q > 0),
                u16::from(q == 0),
                0,
            ]
        })
        .collect();
    // Each of 15 equal leaves asks for less than the one before it, so that all but the first go.
    let less = asking(bottom.clone());
    [
        ("15 leaves, all go", in_itself(&granted, leaves.clone())),
        ("a chain of 15, all go", in_itself(&line(1), steps)),
        (
            "15 equal leaves over 946 nodes, 14 go",
            in_itself(&line(0), bottom.clone()),
        ),
        (
            "15 leaves over 946 nodes, all go",
            in_itself(&line(1), bottom),
        ),
        ("15 leaves, none goes", in_itself(&plain, leaves.clone())),
        ("15 leaves, the last seven go", in_itself(&half, leaves)),
        (
            "15 free leaves, none goes: stopped",
            in_itself(&line(1), star(15, 1)),
        ),
        (
            "15 leaves over 946 nodes, 14 go by figures",
            in_itself(&line(0), less),
        ),
    ]
    .into_iter()
    .flat_map(|(input, case)| after_verdict(input, verdict(case, 1_000)))
    .collect()
}

/// One verdict, and then striking out with its limit.
fn after_verdict(input: &str, judged: Vector) -> [Row; 2] {
    let order = Vector {
        call: MINIMISE,
        ..judged.clone()
    };
    [
        row(
            "verdict",
            &format!("16 nodes in themselves: {input}"),
            vec![judged],
        ),
        larger_row("striking out", input, vec![order]),
    ]
}

/// Calls as the generators draw them, without figures and with them.
fn drawn() -> Vec<Row> {
    let mut rows = drawn_from(Seed::without_figures(1), "");
    rows.extend(drawn_from(1.into(), " with figures"));
    rows
}

/// Calls as they are drawn from a seed, but for their callers and sets; their mean.
fn drawn_from(seed: Seed, figures: &str) -> Vec<Row> {
    let near_limits = || of_one_caller(cases(seed, 80));
    let any = || of_one_caller(random(seed, 1_000));
    let alone = |vectors: Vec<Vector>| vectors.iter().map(alone).collect();
    let near = |count: u32| format!("{count} near the limits{figures}");
    let random = format!("1,000 random{figures}");
    let as_drawn = |input: &str| format!("{input}, sets as they are drawn");
    let mut rows = vec![row(
        "lay out a trial",
        &near(200),
        alone(layouts(seed, 200)),
    )];
    rows.extend(both("verdict", &near(80), alone(near_limits())));
    rows.push(row("verdict", &as_drawn(&near(80)), near_limits()));
    rows.push(row(
        "striking out",
        &as_drawn(&format!("80 drawn{figures}")),
        of_one_caller(strikes(seed, 80)),
    ));
    rows.extend(both("all ten", &random, alone(any())));
    rows.push(row("all ten", &as_drawn(&random), any()));
    rows
}

fn of_one_caller(mut vectors: Vec<Vector>) -> Vec<Vector> {
    for vector in &mut vectors {
        vector.caller = CALLER as u64;
    }
    vectors
}

fn fields(numbers: &[u16]) -> Vec<u8> {
    numbers
        .iter()
        .flat_map(|number| number.to_le_bytes())
        .collect()
}

fn section<const N: usize>(records: &[[u16; N]]) -> Vec<u8> {
    let mut bytes = fields(&[records.len() as u16]);
    bytes.extend(fields(records.as_flattened()));
    bytes
}

fn case(summary: &[[u16; 3]], first: &[[u16; 5]], set: &[Vec<[u16; 5]>]) -> Vec<u8> {
    let mut bytes = [section(summary), section(first)].concat();
    bytes.extend(fields(&[set.len() as u16]));
    for member in set {
        bytes.extend(section(member));
    }
    bytes
}

/// A pattern, and a set of that one alone.
fn in_itself(summary: &[[u16; 3]], pattern: Vec<[u16; 5]>) -> Vec<u8> {
    case(summary, &pattern.clone(), &[pattern])
}

fn document(records: &[[u16; 3]]) -> Vec<u8> {
    section(records)
}

fn verdict(case: Vec<u8>, limit: u64) -> Vector {
    Vector {
        call: VERDICT,
        limit,
        length: ANSWER_BYTES as u64,
        case,
        ..Vector::default()
    }
}

fn of_document(call: u32, case: &[u8], volume: Vec<u8>, list: &[u16]) -> Vector {
    Vector {
        call,
        selection: 1,
        position: 1,
        length: ANSWER_BYTES as u64,
        case: case.to_vec(),
        volume,
        list: fields(list),
        ..Vector::default()
    }
}

/// A summary of 64 nodes one below another, labels 1 to 64.
fn line(strong: u16) -> Vec<[u16; 3]> {
    (0..64u16)
        .map(|i| [i.saturating_sub(1), i + 1, strong * u16::from(i > 0)])
        .collect()
}

/// A pattern: descendants of any label below the root, with the first so many positions.
fn star(free: u16, positions: u16) -> Vec<[u16; 5]> {
    (0..=free)
        .map(|q| {
            let position = if q < positions { q + 1 } else { 0 };
            [0, 0, u16::from(q > 0), position, 0]
        })
        .collect()
}

/// A pattern whose nodes hang one from another by descendant edges.
fn chain(free: u16) -> Vec<[u16; 5]> {
    (0..=free)
        .map(|q| {
            [
                q.saturating_sub(1),
                0,
                u16::from(q > 0),
                u16::from(q == 0),
                0,
            ]
        })
        .collect()
}

/// 1,024 nodes one below another.
fn line_document() -> Vec<[u16; 3]> {
    (0..1_024u16)
        .map(|i| [i.saturating_sub(1), i % 64 + 1, 0])
        .collect()
}

/// 1,024 nodes that conform to the summary `line`: sixteen branches from the root down to its end.
fn bush_document() -> Vec<[u16; 3]> {
    let mut records = vec![[0, 1, 0]];
    while records.len() < 1_024 {
        let step = (records.len() - 1) % 63;
        let parent = if step == 0 { 0 } else { records.len() - 1 };
        records.push([parent as u16, step as u16 + 2, 0]);
    }
    records
}

/// The same with another label at the last node.
fn spoilt(records: &[[u16; 3]]) -> Vec<[u16; 3]> {
    let mut records = records.to_vec();
    records[1_023][1] = 65_535;
    records
}

//! How many calls there were, by call and answer.

use crate::compare::Answered;
use reference::vectors::{
    Vector, DOWNGRADE, FITS, IS_RESULT, LAYOUT, MINIMISE, NODES_AT, NORMALISE, PATHS, UPGRADE,
    VERDICT,
};
use std::fmt;

const NAMES: [(u32, &str); 10] = [
    (VERDICT, "verdict"),
    (FITS, "fits"),
    (IS_RESULT, "is it a result"),
    (NODES_AT, "nodes at a position"),
    (PATHS, "paths"),
    (LAYOUT, "lay out a trial"),
    (UPGRADE, "old to new"),
    (DOWNGRADE, "new to old"),
    (MINIMISE, "striking out"),
    (NORMALISE, "one way of writing"),
];

const QUESTIONS: usize = 17;

/// One row of the table.
#[derive(Clone, Copy, Debug, Default)]
struct Row {
    /// By number; accepted ones at 0.
    refused: [u64; QUESTIONS + 1],
    /// Accepted ones by kind, by whether the test holds, by how many nodes were struck, or by whether what is
    /// written is another case.
    values: [u64; 16],
    /// The most trials, nodes, paths or bytes of one.
    most: u64,
}

#[derive(Clone, Debug, Default)]
pub struct Counts {
    rows: [Row; NAMES.len() + 1],
    /// The longest case, document and list given, and the longest buffer or table lent.
    longest: [usize; 4],
}

impl Counts {
    pub fn count(&mut self, vector: &Vector, answered: Answered) {
        let row = &mut self.rows[vector.call as usize];
        row.refused[answered.refused as usize] += 1;
        if answered.refused == 0 {
            row.values[answered.value as usize] += 1;
            row.most = row.most.max(answered.size);
        }
        let lengths = [
            vector.case.len(),
            vector.volume.len(),
            vector.list.len(),
            vector.length as usize,
        ];
        for (longest, length) in self.longest.iter_mut().zip(lengths) {
            *longest = length.max(*longest);
        }
    }

    pub fn add(&mut self, other: &Counts) {
        for (row, more) in self.rows.iter_mut().zip(&other.rows) {
            row.add(more);
        }
        for (longest, length) in self.longest.iter_mut().zip(other.longest) {
            *longest = length.max(*longest);
        }
    }

    pub fn total(&self) -> u64 {
        self.rows.iter().map(Row::total).sum()
    }
}

impl Row {
    fn add(&mut self, other: &Row) {
        for (number, more) in self.refused.iter_mut().zip(other.refused) {
            *number += more;
        }
        for (number, more) in self.values.iter_mut().zip(other.values) {
            *number += more;
        }
        self.most = self.most.max(other.most);
    }

    fn total(&self) -> u64 {
        self.refused.iter().sum()
    }
}

impl fmt::Display for Counts {
    fn fmt(&self, out: &mut fmt::Formatter) -> fmt::Result {
        let numbers: Vec<String> = (1..=QUESTIONS).map(|n| format!("refused {n}")).collect();
        writeln!(out, "| call | calls | accepted | {} |", numbers.join(" | "))?;
        writeln!(out, "|---{}|", "|---:".repeat(QUESTIONS + 2))?;
        for (call, name) in NAMES {
            let row = &self.rows[call as usize];
            let numbers: Vec<String> = row.refused.iter().map(u64::to_string).collect();
            writeln!(
                out,
                "| {name} | {} | {} |",
                row.total(),
                numbers.join(" | ")
            )?;
        }
        let row = |call: u32| &self.rows[call as usize];
        let [_, contained, not, stopped, ..] = row(VERDICT).values;
        let most = row(VERDICT).most;
        writeln!(
            out,
            "verdicts: {contained} included, {not} not included, {stopped} stopped, at most {most} tried"
        )?;
        for (call, name) in &NAMES[1..3] {
            let [no, yes, ..] = row(*call).values;
            writeln!(out, "{name}: {yes} yes, {no} no")?;
        }
        writeln!(
            out,
            "at most {} nodes at a position, {} nodes laid out",
            row(NODES_AT).most,
            row(LAYOUT).most
        )?;
        let moved = |call: u32| (row(call).refused[0], row(call).most);
        let ((over, most_over), (back, most_back)) = (moved(UPGRADE), moved(DOWNGRADE));
        writeln!(
            out,
            "moved: {over} old to new, at most {most_over} bytes, {back} new to old, at most {most_back}, each there and back again"
        )?;
        let struck: Vec<String> = row(MINIMISE).values.iter().map(u64::to_string).collect();
        writeln!(
            out,
            "orders by how many nodes were struck, from none on: {}; at most {} tried; each judged before and after",
            struck.join(", "),
            row(MINIMISE).most
        )?;
        let [as_it_was, otherwise, ..] = row(NORMALISE).values;
        writeln!(
            out,
            "written in one way: {otherwise} under other numbers, {as_it_was} as they were, at most {} bytes; each again, under other numbers and nearly alike, with the kind of its verdict",
            row(NORMALISE).most
        )?;
        let [case, document, list, lent] = self.longest;
        writeln!(
            out,
            "longest: case {case} bytes, document {document} bytes, list {list} bytes, lent {lent} bytes or records"
        )
    }
}

//! A case as rows that can be altered. What comes out is mostly accepted; the calls refuse the rest.

use reference::generate::Prng;

pub const OUTLINE_MOST: usize = 64;
pub const SELECTION_MOST: usize = 16;
pub const MEMBERS_MOST: usize = 8;

type Selection = Vec<[u16; 5]>;

#[derive(Clone, Debug, Default, PartialEq, Eq)]
pub struct Rows {
    outline: Vec<[u16; 3]>,
    first: Selection,
    set: Vec<Selection>,
}

impl Rows {
    /// The rows of a whole case, `None` where bytes are missing or left.
    pub fn read(case: &[u8]) -> Option<Rows> {
        let mut rest = case;
        let mut rows = Rows {
            outline: section(&mut rest)?,
            first: section(&mut rest)?,
            set: Vec::new(),
        };
        for _ in 0..field(&mut rest)? {
            rows.set.push(section(&mut rest)?);
        }
        let whole = rest.is_empty() && !rows.first.is_empty() && !rows.set.is_empty();
        whole.then_some(rows)
    }

    pub fn bytes(&self) -> Vec<u8> {
        let mut fields = vec![self.outline.len() as u16];
        fields.extend(self.outline.as_flattened());
        fields.push(self.first.len() as u16);
        fields.extend(self.first.as_flattened());
        fields.push(self.set.len() as u16);
        for member in &self.set {
            fields.push(member.len() as u16);
            fields.extend(member.as_flattened());
        }
        fields
            .iter()
            .flat_map(|field| field.to_le_bytes())
            .collect()
    }

    /// How large it is, in words.
    pub fn size(&self) -> String {
        let members: Vec<String> = self.set.iter().map(|m| m.len().to_string()).collect();
        let (outline, first) = (self.outline.len(), self.first.len());
        format!("{outline} + {first} + ({})", members.join(" + "))
    }

    /// One alteration. Where it can't be made, nothing changes.
    pub fn alter(&mut self, prng: &mut Prng) {
        let labels = self.labels();
        match prng.below(12) {
            0..=2 => self.alter_outline(prng),
            3..=5 => alter_selection(prng, &mut self.first, &labels),
            6..=8 => {
                let member = prng.below(self.set.len());
                alter_selection(prng, &mut self.set[member], &labels);
            }
            9 => self.split(prng),
            10 => self.add_ways(prng),
            _ => self.alter_set(prng),
        }
    }

    /// A new node of the first stands at any of two to eight new places, and a member is split into as
    /// many, each of which asks for one of these: what passed by one member passes by turns.
    fn split(&mut self, prng: &mut Prng) {
        let places = prng.between(2, MEMBERS_MOST);
        let at = prng.below(self.set.len());
        let (x, fresh) = (self.outline.len() as u16, self.fresh());
        let room = self.outline.len() + places < OUTLINE_MOST
            && self.first.len() + 1 < SELECTION_MOST
            && self.set[at].len() + 1 < SELECTION_MOST
            && self.set.len() + places <= MEMBERS_MOST + 1;
        if !room {
            return;
        }
        self.outline.push([0, fresh, 0]);
        self.outline
            .extend((1..=places as u16).map(|place| [x, fresh + place, 0]));
        below_root(&mut self.first, fresh, 0);
        let member = self.set.remove(at);
        for place in 1..=places as u16 {
            let mut part = member.clone();
            below_root(&mut part, fresh, fresh + place);
            self.set.push(part);
        }
    }

    /// A new node of the first stands at one of two new places, at which each member has what it now
    /// asks for by another of its nodes.
    fn add_ways(&mut self, prng: &mut Prng) {
        let (x, fresh) = (self.outline.len() as u16, self.fresh());
        let longest = self.set.iter().map(Vec::len).max().unwrap_or(0);
        let most = self.first.len().max(longest);
        if self.outline.len() + 4 > OUTLINE_MOST || most + 2 > SELECTION_MOST {
            return;
        }
        let strong = u16::from(prng.percent(90));
        let (key, other) = (fresh + 1, fresh + 2);
        self.outline.extend([
            [0, fresh, 0],
            [x, key, 0],
            [x, other, 0],
            [x + 2, key, strong],
        ]);
        below_root(&mut self.first, fresh, 0);
        for member in &mut self.set {
            let above = member.len() as u16;
            member.extend([[0, 0, 1, 0, 0], [above, key, 0, 0, 0]]);
        }
    }

    /// A label from which on none occurs in the case.
    fn fresh(&self) -> u16 {
        let labels = self.outline.iter().map(|row| row[1]);
        labels.max().unwrap_or(0).min(50_000) + 1
    }

    /// The labels that a node may ask for: any, those of the outline, and one that is nowhere.
    fn labels(&self) -> Vec<u16> {
        let mut labels = vec![0, 0, 0, 60_000];
        labels.extend(self.outline.iter().map(|row| row[1]));
        labels
    }

    fn alter_outline(&mut self, prng: &mut Prng) {
        let count = self.outline.len();
        let at = 1 + prng.below(count - 1);
        let labels = self.labels();
        let label = labels[3 + prng.below(labels.len() - 3)];
        let parent = prng.below(count.min(at)) as u16;
        match prng.below(7) {
            0 if count < OUTLINE_MOST => {
                let above = if prng.percent(50) {
                    count - 1
                } else {
                    prng.below(count)
                };
                let strong = u16::from(prng.percent(30));
                self.outline
                    .push([above as u16, 1_000 + count as u16, strong]);
            }
            1 if count > 2 => remove_leaf(prng, &mut self.outline, |_| true),
            5 => swap_next(&mut self.outline, at),
            2 if count > 1 => self.outline[at][0] = parent,
            3 if count > 1 => self.outline[at][1] = label.max(1),
            4 if count > 1 => self.outline[at][1] = 2_000 + at as u16,
            _ if count > 1 => self.outline[at][2] ^= 1,
            _ => {}
        }
    }

    /// A member fewer, or one more: another, or the first, altered.
    fn alter_set(&mut self, prng: &mut Prng) {
        let at = prng.below(self.set.len());
        match prng.below(4) {
            0 if self.set.len() > 1 => drop(self.set.remove(at)),
            1 => {
                let other = prng.below(self.set.len());
                self.set.swap(at, other);
            }
            _ if self.set.len() == MEMBERS_MOST => {}
            kind => {
                let from = if kind == 2 {
                    &self.first
                } else {
                    &self.set[at]
                };
                let (mut member, labels) = (from.clone(), self.labels());
                for _ in 0..prng.between(1, 3) {
                    alter_selection(prng, &mut member, &labels);
                }
                self.set.push(member);
            }
        }
    }
}

fn alter_selection(prng: &mut Prng, rows: &mut Selection, labels: &[u16]) {
    let count = rows.len();
    let at = prng.below(count);
    let label = labels[prng.below(labels.len())];
    match prng.below(10) {
        0 if count < SELECTION_MOST => {
            let edge = u16::from(prng.percent(60));
            rows.push([at as u16, label, edge, 0, 0]);
        }
        1 => remove_leaf(prng, rows, |row| row[3] == 0),
        2 if at > 0 => rows[at][0] = prng.below(at) as u16,
        3 if at > 0 => rows[at][2] ^= 1,
        4 => {
            let other = prng.below(count);
            let held = rows[at][3];
            rows[at][3] = rows[other][3];
            rows[other][3] = held;
        }
        5 => swap_next(rows, at),
        6 if at > 0 && count < SELECTION_MOST => {
            let [parent, label, edge, _, figure] = rows[at];
            rows.push([parent, label, edge, 0, figure]);
        }
        7 => rows[at][4] = [0, 0, 1, 2, 2_000][prng.below(5)],
        _ => rows[at][1] = label,
    }
}

/// A child of the root, and a child of that.
fn below_root(rows: &mut Selection, label: u16, below: u16) {
    let above = rows.len() as u16;
    rows.extend([[0, label, 0, 0, 0], [above, below, 0, 0, 0]]);
}

/// A row, not the root's, and the next one change places where they may. The order of the first
/// pattern's nodes and of the outline's is that of the trials.
fn swap_next<const N: usize>(rows: &mut [[u16; N]], at: usize) {
    if at == 0 || at + 1 >= rows.len() || usize::from(rows[at + 1][0]) == at {
        return;
    }
    rows.swap(at, at + 1);
    for row in &mut rows[at + 2..] {
        row[0] = match usize::from(row[0]) {
            parent if parent == at => at as u16 + 1,
            parent if parent == at + 1 => at as u16,
            _ => row[0],
        };
    }
}

/// Takes out some node that has none below it; those behind it move up by one.
fn remove_leaf<const N: usize>(
    prng: &mut Prng,
    rows: &mut Vec<[u16; N]>,
    may: impl Fn(&[u16; N]) -> bool,
) {
    let inner = |at: usize| rows.iter().skip(1).any(|row| usize::from(row[0]) == at);
    let leaves: Vec<usize> = (1..rows.len())
        .filter(|&at| may(&rows[at]) && !inner(at))
        .collect();
    let Some(&leaf) = prng.one_of(&leaves) else {
        return;
    };
    rows.remove(leaf);
    for row in rows.iter_mut().filter(|row| usize::from(row[0]) > leaf) {
        row[0] -= 1;
    }
}

fn field(rest: &mut &[u8]) -> Option<u16> {
    let (field, after) = rest.split_first_chunk::<2>()?;
    *rest = after;
    Some(u16::from_le_bytes(*field))
}

fn section<const N: usize>(rest: &mut &[u8]) -> Option<Vec<[u16; N]>> {
    let count = field(rest)?;
    let mut rows = Vec::new();
    for _ in 0..count {
        let mut row = [0; N];
        for number in &mut row {
            *number = field(rest)?;
        }
        rows.push(row);
    }
    Some(rows)
}

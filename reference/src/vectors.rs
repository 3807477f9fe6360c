//! Test vectors: one call each, with its numbers and byte strings. The format
//! is described in README.md.

use crate::calls::{self, CountAnswer, NodeRecord, Tallies, CALLERS, TALLY_MOST};

pub const VERDICT: u32 = 1;
pub const FITS: u32 = 2;
pub const IS_RESULT: u32 = 3;
pub const NODES_AT: u32 = 4;
pub const PATHS: u32 = 5;
pub const LAYOUT: u32 = 6;
pub const UPGRADE: u32 = 7;
pub const DOWNGRADE: u32 = 8;
pub const MINIMISE: u32 = 9;
pub const NORMALISE: u32 = 10;

/// Lent bytes begin with this; lent table fields with it twice.
pub const FILLING: u8 = 0xAA;

/// No vector lends more bytes or records than this, so that a damaged file
/// cannot ask for all memory.
const LENT_MOST: u64 = 1 << 24;

/// One call. What the call does not take is 0 or empty.
#[derive(Clone, Debug, Default, PartialEq, Eq)]
pub struct Vector {
    pub call: u32,
    pub limit: u64,
    /// The caller's own, before the call.
    pub tally: u64,
    pub caller: u64,
    pub selection: u64,
    pub position: u64,
    /// Bytes of the answer buffer, or records of the table.
    pub length: u64,
    pub case: Vec<u8>,
    pub volume: Vec<u8>,
    pub list: Vec<u8>,
}

impl Vector {
    pub fn write(&self, out: &mut Vec<u8>) {
        out.extend(self.call.to_le_bytes());
        for number in [
            self.limit,
            self.tally,
            self.caller,
            self.selection,
            self.position,
            self.length,
        ] {
            out.extend(number.to_le_bytes());
        }
        for bytes in [&self.case, &self.volume, &self.list] {
            out.extend((bytes.len() as u32).to_le_bytes());
            out.extend(bytes);
        }
    }

    /// Reads the first vector and steps past it; `None` where it is damaged.
    pub fn read(rest: &mut &[u8]) -> Option<Vector> {
        let call = read_u32(rest)?;
        let mut numbers = [0; 6];
        for number in &mut numbers {
            *number = read_u64(rest)?;
        }
        let [limit, tally, caller, selection, position, length] = numbers;
        let case = read_bytes(rest)?;
        let volume = read_bytes(rest)?;
        let list = read_bytes(rest)?;
        let known = (VERDICT..=NORMALISE).contains(&call) && length <= LENT_MOST;
        known.then_some(Vector {
            call,
            limit,
            tally,
            caller,
            selection,
            position,
            length,
            case,
            volume,
            list,
        })
    }

    /// The refusal number, 0 where the call is accepted.
    pub fn refusal(&self) -> u64 {
        let length = self.length as usize;
        let (limit, caller) = (self.limit, self.caller);
        match self.call {
            VERDICT => calls::verdict_refusal(&self.case, limit, caller, &self.tallies(), length),
            MINIMISE => calls::minimise_refusal(&self.case, limit, caller, &self.tallies(), length),
            FITS => calls::fits_refusal(&self.case, &self.volume),
            IS_RESULT => {
                calls::result_refusal(&self.case, self.selection, &self.volume, &self.list)
            }
            NODES_AT => calls::nodes_refusal(
                &self.case,
                self.selection,
                &self.volume,
                self.position,
                length,
            ),
            PATHS => calls::paths_refusal(&self.case, self.selection),
            UPGRADE => calls::upgrade_refusal(&self.case, length),
            DOWNGRADE => calls::downgrade_refusal(&self.case, length),
            NORMALISE => calls::normalise_refusal(&self.case, length),
            _ => calls::layout_refusal(&self.case, self.selection, &self.list, length),
        }
    }

    /// The whole outcome on one line, the lent buffer or table included.
    pub fn outcome(&self) -> String {
        match self.call {
            VERDICT => self.tallied(|tallies, answer| {
                let got = calls::verdict(&self.case, self.limit, self.caller, tallies, answer);
                let fields = format!("verdict refused {} kind {}", got.refused, got.kind);
                (fields, got.tried)
            }),
            MINIMISE => self.tallied(|tallies, answer| {
                let got = calls::minimise(&self.case, self.limit, self.caller, tallies, answer);
                let fields = format!("minimise refused {} struck {}", got.refused, got.struck);
                (fields, got.tried)
            }),
            FITS => {
                let got = calls::fits(&self.case, &self.volume);
                format!("fits refused {} holds {}", got.refused, u8::from(got.holds))
            }
            IS_RESULT => {
                let got = calls::is_result(&self.case, self.selection, &self.volume, &self.list);
                format!(
                    "result refused {} holds {}",
                    got.refused,
                    u8::from(got.holds)
                )
            }
            NODES_AT => {
                let mut answer = vec![FILLING; self.length as usize];
                let got = calls::nodes_at(
                    &self.case,
                    self.selection,
                    &self.volume,
                    self.position,
                    &mut answer,
                );
                let seen = seen(&answer, answer.len());
                format!("nodes refused {} count {} {seen}", got.refused, got.count)
            }
            PATHS => {
                let got = calls::paths(&self.case, self.selection);
                let masks = words(&got.masks);
                let counts = words(&got.counts);
                format!(
                    "paths refused {} masks {masks} counts {counts}",
                    got.refused
                )
            }
            UPGRADE => self.written("upgrade", calls::upgrade),
            DOWNGRADE => self.written("downgrade", calls::downgrade),
            NORMALISE => self.written("normalise", calls::normalise),
            _ => {
                let filling = u16::from_le_bytes([FILLING, FILLING]);
                let record = NodeRecord {
                    parent: filling,
                    outline: filling,
                    label: filling,
                    figure: filling,
                };
                let mut table = vec![record; self.length as usize];
                let got = calls::layout(&self.case, self.selection, &self.list, &mut table);
                let bytes: Vec<u8> = table
                    .iter()
                    .flat_map(|record| [record.parent, record.outline, record.label, record.figure])
                    .flat_map(u16::to_le_bytes)
                    .collect();
                let seen = seen(&bytes, table.len());
                format!("layout refused {} count {} {seen}", got.refused, got.count)
            }
        }
    }

    /// The eight tallies before the call: the vector's for the caller, and for
    /// the others, who "may hold anything", something drawn from the vector.
    pub fn tallies(&self) -> Tallies {
        let mut tallies = std::array::from_fn(|other| self.drawn_tally(other as u64));
        if let Some(own) = self.caller_index() {
            tallies[own] = self.tally;
        }
        tallies
    }

    /// Nothing, the most there can be, what question 9 may let pass, too much for
    /// it, or any number.
    fn drawn_tally(&self, other: u64) -> u64 {
        let case_length = self.case.len() as u64;
        let from = [self.limit, self.tally, self.caller, case_length, other];
        let drawn = fnv1a(from.map(u64::to_le_bytes).as_flattened());
        let small = drawn % TALLY_MOST;
        [0, u64::MAX, small, TALLY_MOST + small, drawn][(drawn >> 32) as usize % 5]
    }

    /// Which tally is the caller's; `None` where there is no such caller.
    fn caller_index(&self) -> Option<usize> {
        let index = usize::try_from(self.caller).ok()?;
        (index < CALLERS).then_some(index)
    }

    /// The line of a call that raises its caller's tally by tried, as of one that
    /// is given this tally as a number; so the tallies are looked at here. The
    /// call gives the fields before tried, and tried.
    fn tallied(&self, call: impl FnOnce(&mut Tallies, &mut [u8]) -> (String, u64)) -> String {
        let mut answer = vec![FILLING; self.length as usize];
        let mut tallies = self.tallies();
        let mut expected = tallies;
        let (fields, tried) = call(&mut tallies, &mut answer);
        if let Some(own) = self.caller_index() {
            expected[own] += tried;
        }
        assert_eq!(tallies, expected, "the tallies after the call");
        format!("{fields} tried {tried} {}", seen(&answer, answer.len()))
    }

    /// The line of a call that writes a case.
    fn written(&self, name: &str, call: fn(&[u8], &mut [u8]) -> CountAnswer) -> String {
        let mut answer = vec![FILLING; self.length as usize];
        let got = call(&self.case, &mut answer);
        let seen = seen(&answer, answer.len());
        format!("{name} refused {} count {} {seen}", got.refused, got.count)
    }
}

/// All vectors of a file, or what is wrong with it.
pub fn read_all(bytes: &[u8]) -> Result<Vec<Vector>, String> {
    let mut rest = bytes;
    let mut vectors = Vec::new();
    while !rest.is_empty() {
        let at = bytes.len() - rest.len();
        match Vector::read(&mut rest) {
            Some(vector) => vectors.push(vector),
            None => return Err(format!("vector {} at byte {at} is damaged", vectors.len())),
        }
    }
    Ok(vectors)
}

/// 64-bit FNV-1a.
pub fn fnv1a(bytes: &[u8]) -> u64 {
    bytes.iter().fold(0xcbf2_9ce4_8422_2325, |hash, &byte| {
        (hash ^ u64::from(byte)).wrapping_mul(0x0100_0000_01b3)
    })
}

fn seen(bytes: &[u8], length: usize) -> String {
    format!("length {length} hash {:016x}", fnv1a(bytes))
}

fn words(numbers: &[u64]) -> String {
    let words: Vec<String> = numbers.iter().map(u64::to_string).collect();
    words.join(" ")
}

fn read_u32(rest: &mut &[u8]) -> Option<u32> {
    let (number, after) = rest.split_first_chunk::<4>()?;
    *rest = after;
    Some(u32::from_le_bytes(*number))
}

fn read_u64(rest: &mut &[u8]) -> Option<u64> {
    let (number, after) = rest.split_first_chunk::<8>()?;
    *rest = after;
    Some(u64::from_le_bytes(*number))
}

fn read_bytes(rest: &mut &[u8]) -> Option<Vec<u8>> {
    let length = read_u32(rest)? as usize;
    let (bytes, after) = rest.split_at_checked(length)?;
    *rest = after;
    Some(bytes.to_vec())
}

#[cfg(test)]
mod tests {
    use super::*;

    #[test]
    fn hashes_are_the_published_ones() {
        assert_eq!(fnv1a(b""), 0xcbf2_9ce4_8422_2325);
        assert_eq!(fnv1a(b"a"), 0xaf63_dc4c_8601_ec8c);
        assert_eq!(fnv1a(b"foobar"), 0x8594_4171_f739_67e8);
    }

    #[test]
    fn vectors_read_back() {
        let vector = Vector {
            call: LAYOUT,
            limit: 1,
            tally: u64::MAX,
            caller: 7,
            selection: 2,
            position: 3,
            length: 1_024,
            case: vec![1, 2, 3],
            volume: vec![],
            list: vec![9],
        };
        let mut bytes = Vec::new();
        vector.write(&mut bytes);
        vector.write(&mut bytes);
        assert_eq!(bytes.len(), 2 * (4 + 48 + 12 + 4));
        assert_eq!(read_all(&bytes), Ok(vec![vector.clone(), vector]));
        for cut in 1..bytes.len() / 2 {
            assert!(read_all(&bytes[..cut]).is_err());
        }
    }

    #[test]
    fn the_vectors_tally_is_the_callers_and_the_others_hold_anything() {
        let of_caller = |caller| Vector {
            tally: 12,
            caller,
            ..Vector::default()
        };
        let mut others = Vec::new();
        for caller in 0..CALLERS {
            let mut tallies = of_caller(caller as u64).tallies().to_vec();
            assert_eq!(tallies.remove(caller), 12);
            others.extend(tallies);
        }
        others.extend(of_caller(8).tallies());
        others.extend(of_caller(u64::MAX).tallies());
        for extreme in [0, u64::MAX] {
            assert!(others.contains(&extreme));
        }
        for least in [1, TALLY_MOST] {
            let within = |tally: &u64| (least..least + TALLY_MOST).contains(tally);
            assert!(others.iter().any(within));
        }
        assert!(!others.contains(&12));
    }
}

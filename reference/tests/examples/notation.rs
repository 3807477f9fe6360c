//! Document 01's notation for outlines, selections and volumes: r, a, b, c are
//! labels 1 to 4 and 0 any label; `^` marks position 1 and `^2` position 2;
//! `//` is a descendant edge. `!` before a node marks a strong edge, and `@5` after it
//! the figure 5, which is else 0. Numbers follow the writing.

/// Parent, label, strong or edge, position and figure.
pub type Row = [u16; 5];

/// The fields of a record.
pub const OUTLINE: &[usize] = &[0, 1, 2];
pub const SELECTION: &[usize] = &[0, 1, 2, 3, 4];
const OLD_SELECTION: &[usize] = &[0, 1, 2, 3];
const VOLUME: &[usize] = &[0, 1, 4];

struct Reader<'a> {
    text: &'a [u8],
    rows: Vec<Row>,
}

impl Reader<'_> {
    fn take(&mut self, prefix: &str) -> bool {
        match self.text.strip_prefix(prefix.as_bytes()) {
            Some(rest) => {
                self.text = rest;
                true
            }
            None => false,
        }
    }

    fn number(&mut self) -> Option<u16> {
        let digits = self.text.iter().take_while(|byte| byte.is_ascii_digit());
        let (digits, rest) = self.text.split_at(digits.count());
        self.text = rest;
        str::from_utf8(digits).ok()?.parse().ok()
    }

    fn node(&mut self, parent: u16, flag: u16) {
        let label = match self.text[0] {
            b'r' => 1,
            b'a' => 2,
            b'b' => 3,
            b'c' => 4,
            b'0' => 0,
            other => panic!("no label: {other}"),
        };
        self.text = &self.text[1..];
        let position = if self.take("^") {
            self.number().unwrap_or(1)
        } else {
            0
        };
        let figure = if self.take("@") { self.number() } else { None };
        let own = self.rows.len() as u16;
        self.rows
            .push([parent, label, flag, position, figure.unwrap_or(0)]);
        if self.take("//") {
            self.node(own, 1);
        } else if self.take("(") {
            loop {
                let flag = self.take("//") || self.take("!");
                self.node(own, flag.into());
                if !self.take(",") {
                    break;
                }
            }
            assert!(self.take(")"));
        }
    }
}

pub fn rows(text: &str) -> Vec<Row> {
    let mut reader = Reader {
        text: text.as_bytes(),
        rows: Vec::new(),
    };
    reader.node(0, 0);
    assert!(reader.text.is_empty(), "left over in {text}");
    reader.rows
}

fn put(out: &mut Vec<u8>, fields: &[u16]) {
    out.extend(fields.iter().flat_map(|field| field.to_le_bytes()));
}

/// A count and as many records, of each these fields.
pub fn bytes(rows: &[Row], fields: &[usize]) -> Vec<u8> {
    let mut out = Vec::new();
    put(&mut out, &[rows.len() as u16]);
    for row in rows {
        let record: Vec<u16> = fields.iter().map(|&field| row[field]).collect();
        put(&mut out, &record);
    }
    out
}

/// A case with a set of one.
pub fn case(outline: &str, first: &str, member: &str) -> Vec<u8> {
    set_case(outline, first, &[member])
}

pub fn set_case(outline: &str, first: &str, set: &[&str]) -> Vec<u8> {
    let mut out = bytes(&rows(outline), OUTLINE);
    out.extend(section(first));
    put(&mut out, &[set.len() as u16]);
    for member in set {
        out.extend(section(member));
    }
    out
}

/// The same in the old form: the second selection follows the first.
pub fn old_case(outline: &str, first: &str, second: &str) -> Vec<u8> {
    let mut out = bytes(&rows(outline), OUTLINE);
    for selection in [first, second] {
        out.extend(bytes(&rows(selection), OLD_SELECTION));
    }
    out
}

/// A selection's section by itself.
pub fn section(text: &str) -> Vec<u8> {
    bytes(&rows(text), SELECTION)
}

pub fn volume(text: &str) -> Vec<u8> {
    bytes(&rows(text), VOLUME)
}

pub fn list(fields: &[u16]) -> Vec<u8> {
    let mut out = Vec::new();
    put(&mut out, fields);
    out
}

//! What the two builds of koto's code are asked and answer, in plain numbers and under document 01's names.

/// The text of well-formed bytes. Else refusal 3, or 15 where the end cuts the character that stands first of what is ill-formed, with its offset
pub fn text_of(bytes: &[u8]) -> Result<&str, (u32, usize)> {
    std::str::from_utf8(bytes).map_err(|error| {
        let number = if error.error_len().is_none() { 15 } else { 3 };
        (number, error.valid_up_to())
    })
}

/// kind, detail, byte start, byte end, start line, start column, end line, end column, indent, depth
pub type Record = [u32; 10];

#[derive(Clone, Copy, PartialEq)]
pub enum Status {
    End,
    Stuck,
    Refused(u32),
}

#[derive(PartialEq)]
pub struct Scan {
    pub status: Status,
    pub records: Vec<Record>,
    /// The current byte, or the place of the refusal
    pub place: usize,
    /// The first record whose token the site profile forbids (document 02, C-14); none where the scan is refused
    pub forbidden: Option<usize>,
}

#[derive(Clone, Copy)]
pub enum Call {
    Next,
    Peek(usize),
    /// Not koto's: what the comment above its `peek` says
    LookAhead(usize),
}

pub enum Shown {
    Record(Record),
    Nothing,
    Refused(u32),
}

#[derive(PartialEq)]
pub struct Options {
    pub alignment: u32,
    pub width: Option<u32>,
    pub precision: Option<u32>,
    pub representation: Option<u32>,
    pub fill: Option<Fill>,
}

/// The fill as a place and a length in the format string, and its index in the pool
#[derive(PartialEq)]
pub struct Fill {
    pub place: usize,
    pub length: usize,
    pub index: u32,
}

/// A pool before a parse: its strings, and the room of its rows
pub struct Pool {
    pub strings: Vec<String>,
    pub entries: usize,
    pub bytes: usize,
}

#[derive(PartialEq)]
pub struct Parse {
    /// The options, or the refusal's number and value
    pub answer: Result<Options, (u32, u64)>,
    /// The strings of the pool afterwards
    pub strings: Vec<String>,
}

/// One build of koto's code. The texts are those that refusals 1 to 3 let pass.
pub struct Judge {
    pub scan: fn(&str, usize) -> Scan,
    pub walk: fn(&str, &[Call]) -> (Vec<Shown>, usize),
    pub parse: fn(&str, &Pool) -> Parse,
    /// The byte length of the first cluster, 0 for an empty text
    pub first_cluster: fn(&str) -> usize,
    /// The byte lengths of all clusters
    pub clusters: fn(&str) -> Vec<usize>,
}

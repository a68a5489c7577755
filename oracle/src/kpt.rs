//! Property tables and their files (document 01, "The property table").

const CODE_POINTS: u32 = 0x11_0000;

const SMALL: [(u32, u32); 22] = [
    (0x0, 48),
    (0xA, 32),
    (0xB, 48),
    (0xD, 16),
    (0xE, 48),
    (0x20, 4),
    (0x30, 6),
    (0x3A, 4),
    (0x41, 7),
    (0x5B, 4),
    (0x5F, 6),
    (0x60, 4),
    (0x61, 7),
    (0x7B, 4),
    (0x7F, 48),
    (0xA0, 4),
    (0xE9, 7),
    (0xEA, 4),
    (0x300, 1090),
    (0x370, 4),
    (0x4E00, 11),
    (0xA000, 4),
];

pub fn small() -> Vec<u32> {
    SMALL.iter().map(|&(start, properties)| start * 2048 + properties).collect()
}

/// The table of what the real crates say
pub fn full() -> Vec<u32> {
    table_of(|c| {
        use unicode_xid::UnicodeXID;
        let xid = (c.is_xid_start(), c.is_xid_continue());
        number_of(xid, unicode_width::UnicodeWidthChar::width(c), unicode_segmentation::oracle_properties(c))
    })
}

/// The table of what the older crates say, which know no InCB
pub fn older() -> Vec<u32> {
    table_of(|c| {
        use older_xid::UnicodeXID;
        let xid = (c.is_xid_start(), c.is_xid_continue());
        number_of(xid, older_width::UnicodeWidthChar::width(c), older_segmentation::oracle_properties(c))
    })
}

/// The runs of what is said of each character. A surrogate is none and never looked up, so it goes on with the run before it.
fn table_of(properties: impl Fn(char) -> u32) -> Vec<u32> {
    let mut row: Vec<u32> = vec![];
    for code_point in 0..CODE_POINTS {
        let Some(c) = char::from_u32(code_point) else {
            continue;
        };
        let properties = properties(c);
        if row.last().is_none_or(|last| last % 2048 != properties) {
            row.push(code_point * 2048 + properties);
        }
    }
    row
}

/// XID_Start and XID_Continue, the width, and the cluster class, Extended_Pictographic and InCB as a table has them
fn number_of(xid: (bool, bool), width: Option<usize>, clusters: (u32, bool, u32)) -> u32 {
    let width = width.unwrap_or(0) as u32;
    assert!(width < 4, "a character is wider than a table can say");
    let (class, is_pictograph, incb) = clusters;
    u32::from(xid.0) + 2 * u32::from(xid.1) + 4 * width + 16 * class + 256 * u32::from(is_pictograph) + 512 * incb
}

/// The properties of a code point by a table whose starts rise from 0
pub fn properties(row: &[u32], code_point: u32) -> u32 {
    let after = row.partition_point(|number| number / 2048 <= code_point);
    row[after - 1] % 2048
}

/// Refusal 2's place, or none for a fit table
pub fn bad_table(row: &[u32]) -> Option<usize> {
    if row.is_empty() || row.len() > 8000 {
        return Some(0);
    }
    if let Some(bad) = (0..row.len()).find(|&i| is_bad_run(row, i)) {
        return Some(bad);
    }
    let small = small();
    let differs = |c| properties(row, c) != properties(&small, c);
    (0..128).any(differs).then_some(row.len())
}

fn is_bad_run(row: &[u32], i: usize) -> bool {
    let (start, properties) = (row[i] / 2048, row[i] % 2048);
    let is_start_fit = if i == 0 { start == 0 } else { start > row[i - 1] / 2048 };
    !is_start_fit || start >= CODE_POINTS || properties / 16 % 16 >= 14 || properties % 4 == 1
}

/// The table in a file, or the refusal's number and place
pub fn read(file: &[u8], room: usize) -> Result<Vec<u32>, (u32, usize)> {
    for (i, byte) in b"KPT\x01\x00\x00".iter().enumerate() {
        if file.get(i) != Some(byte) {
            return Err((14, i));
        }
    }
    let Some(count) = file.get(6..8) else {
        return Err((14, file.len()));
    };
    let count = usize::from(u16::from_le_bytes([count[0], count[1]]));
    let length = 8 + 4 * count;
    if file.len() != length {
        return Err((14, file.len().min(length)));
    }
    if room < count {
        return Err((4, 0));
    }
    let number = |four: &[u8]| u32::from_le_bytes(four.try_into().unwrap());
    let row: Vec<u32> = file[8..].chunks_exact(4).map(number).collect();
    match bad_table(&row) {
        Some(place) => Err((2, place)),
        None => Ok(row),
    }
}

pub fn file_of(row: &[u32]) -> Vec<u8> {
    let mut file = b"KPT\x01\x00\x00".to_vec();
    file.extend((row.len() as u16).to_le_bytes());
    row.iter().for_each(|number| file.extend(number.to_le_bytes()));
    file
}

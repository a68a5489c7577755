//! A list after one edited line: `rescan`, and an `Editor` that keeps a script's list while it is edited.

use crate::lists::{room_for, scan, Scanned};
use crate::raw;
use crate::Edition;

/// An edit of a source: at `place`, `removed` bytes went and `put_in` bytes came
#[derive(Clone, Copy, Debug, PartialEq, Eq)]
pub struct Edit {
    pub place: usize,
    pub removed: usize,
    pub put_in: usize,
}

/// A source before an edit, and its list, of which `count` records count
#[derive(Clone, Copy, Debug)]
pub struct Old<'a> {
    pub source: &'a [u8],
    pub list: &'a [u32],
    pub count: usize,
}

/// What a rescan answers
#[derive(Clone, Copy, Debug, PartialEq, Eq)]
pub enum Rescanned {
    /// What a scan of the new source may answer
    AsScan(Scanned),
    /// Refusal 16: the edit does not lead from the old source to the new one. The list stays.
    BadEdit,
    /// Refusal 8: the old list has no room for `count` records. The list stays.
    BadState,
}

/// Writes the records of a source at the start of the list, after an edit of the old one: records before the edited line are taken from the old
/// list. Where that is the old source's, as a scan with this table and edition left it, answer and list are those of `scan`.
pub fn rescan(old: Old, edit: Edit, source: &[u8], table: &[u32], edition: Edition, list: &mut [u32]) -> Rescanned {
    let (mut status, mut count, mut byte) = (0, 0, 0);
    // SAFETY: the slices are lent for the call, the list to be written, and each answer word is a local.
    let refused = unsafe {
        raw::koto_rescan(
            old.source.as_ptr(),
            old.source.len(),
            old.list.as_ptr(),
            old.list.len(),
            old.count,
            edit.place,
            edit.removed,
            edit.put_in,
            source.as_ptr(),
            source.len(),
            table.as_ptr(),
            table.len(),
            edition.0,
            list.as_mut_ptr(),
            list.len(),
            &mut status,
            &mut count,
            &mut byte,
        )
    };
    match refused {
        16 => Rescanned::BadEdit,
        8 => Rescanned::BadState,
        _ => Rescanned::AsScan(Scanned::of(refused, status, count, byte)),
    }
}

/// A script that is being edited, and its list. It has two lists and swaps them at each edit.
pub struct Editor {
    table: Vec<u32>,
    edition: Edition,
    source: Vec<u8>,
    list: Vec<u32>,
    spare: Vec<u32>,
    scanned: Scanned,
}

impl Editor {
    pub fn new(source: Vec<u8>, table: Vec<u32>, edition: Edition) -> Editor {
        let mut list = vec![0; room_for(source.len())];
        let scanned = scan(&source, &table, edition, &mut list);
        Editor { table, edition, source, list, spare: vec![], scanned }
    }

    /// Removes so many bytes at a place and puts others in. A source that the lexer refuses stays as the editor's text, with no record; an edit
    /// that reaches past the text is answered by `None` and changes nothing.
    pub fn edit(&mut self, place: usize, removed: usize, put_in: &[u8]) -> Option<Scanned> {
        let end = place.checked_add(removed).filter(|end| *end <= self.source.len())?;
        let source = [&self.source[..place], put_in, &self.source[end..]].concat();
        if self.spare.len() < room_for(source.len()) {
            self.spare.resize(room_for(source.len()), 0);
        }
        let old = Old { source: &self.source, list: &self.list, count: self.scanned.count() };
        let edit = Edit { place, removed, put_in: put_in.len() };
        let scanned = match rescan(old, edit, &source, &self.table, self.edition, &mut self.spare) {
            Rescanned::AsScan(scanned) => scanned,
            Rescanned::BadEdit | Rescanned::BadState => unreachable!("the edit was made here, and the list is a scan's"),
        };
        std::mem::swap(&mut self.list, &mut self.spare);
        (self.source, self.scanned) = (source, scanned);
        Some(scanned)
    }

    pub fn source(&self) -> &[u8] {
        &self.source
    }

    /// The source's records, as a scan writes them; what stands past them has no meaning
    pub fn list(&self) -> &[u32] {
        &self.list
    }

    /// How a scan of the source ends
    pub fn scanned(&self) -> Scanned {
        self.scanned
    }
}

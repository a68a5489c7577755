//! Document 02, C-12 and C-13, sentence by sentence: a pool is a list of strings with their owners, and room is counted in whole numbers that
//! may be below zero. Nothing here is as the code has it.

/// A pool that two desks share, as it is lent
#[derive(Clone, Debug, PartialEq, Eq)]
pub struct State {
    pub bytes: Vec<u8>,
    pub entries: Vec<[u32; 2]>,
    pub owners: Vec<u8>,
    /// Entries and bytes in use
    pub counts: [u32; 2],
    /// Of each desk what it is guaranteed and what it is charged, in entries and bytes
    pub desks: [[[u32; 2]; 2]; 2],
}

impl State {
    /// The strings in use, with their owners, where the pool is one
    fn strings(&self) -> Option<Vec<(&[u8], u8)>> {
        let [count, used] = self.counts.map(|n| n as usize);
        let mut at = 0usize;
        let mut found = vec![];
        for (i, entry) in self.entries.get(..count)?.iter().enumerate() {
            let [start, len] = entry.map(|n| n as usize);
            if start != at {
                return None;
            }
            at += len;
            found.push((self.bytes.get(start..at)?, self.owners.get(i).copied()));
        }
        if at != used || self.owners.len() < self.entries.len() {
            return None;
        }
        found.into_iter().map(|(string, owner)| Some((string, owner?))).collect()
    }

    /// The room of the pool, in entries (0) or in bytes (1)
    fn room(&self, kind: usize) -> i64 {
        [self.entries.len(), self.bytes.len()][kind] as i64
    }

    /// What a desk is guaranteed (0) or charged (1), in entries or in bytes
    fn of(&self, desk: usize, what: usize, kind: usize) -> i64 {
        self.desks[desk][what][kind] as i64
    }

    /// What is left of the common room
    fn common_left(&self, kind: usize) -> i64 {
        let common = self.room(kind) - self.of(0, 0, kind) - self.of(1, 0, kind);
        common - (0..2).map(|desk| (self.of(desk, 1, kind) - self.of(desk, 0, kind)).max(0)).sum::<i64>()
    }

    /// Refusal 8 is not given.
    pub fn is_fit(&self) -> bool {
        let Some(strings) = self.strings() else { return false };
        let holds = |desk: usize, kind: usize| -> i64 {
            strings.iter().filter(|(_, owner)| *owner as usize == desk).map(|(s, _)| if kind == 0 { 1 } else { s.len() as i64 }).sum()
        };
        (0..2).all(|kind| {
            self.of(0, 0, kind) + self.of(1, 0, kind) <= self.room(kind)
                && self.of(0, 1, kind) + self.of(1, 1, kind) == self.counts[kind] as i64
                && (0..2).all(|desk| self.of(desk, 1, kind) == holds(desk, kind))
                && 0 <= self.common_left(kind)
        })
    }

    /// A well-formed string added to a fit state for a desk: its index, or nothing where it has no room
    pub fn put(&mut self, desk: usize, string: &[u8]) -> Option<u32> {
        let strings = self.strings().expect("a fit state");
        if let Some(index) = strings.iter().position(|(s, _)| *s == string) {
            return Some(index as u32);
        }
        let more = [1, string.len() as i64];
        for kind in 0..2 {
            let own = (self.of(desk, 0, kind) - self.of(desk, 1, kind)).max(0);
            if self.common_left(kind) + own < more[kind] {
                return None;
            }
        }
        let [index, start] = self.counts;
        self.entries[index as usize] = [start, string.len() as u32];
        self.owners[index as usize] = desk as u8;
        self.bytes[start as usize..][..string.len()].copy_from_slice(string);
        for kind in 0..2 {
            self.counts[kind] += more[kind] as u32;
            self.desks[desk][1][kind] += more[kind] as u32;
        }
        Some(index)
    }
}

/// Refusal 3 or 15 of some bytes, with its place
pub fn ill_formed(bytes: &[u8]) -> Option<(u32, usize)> {
    let error = std::str::from_utf8(bytes).err()?;
    Some((if error.error_len().is_some() { 3 } else { 15 }, error.valid_up_to()))
}

/// `koto_desk_add_string`: the refusal, the index and the place
pub fn add_string(desk: u32, string: &[u8], state: &mut State) -> (u32, u32, usize) {
    if let Some((number, place)) = ill_formed(string) {
        return (number, 0, place);
    }
    if desk > 1 || !state.is_fit() {
        return (8, 0, 0);
    }
    match state.put(desk as usize, string) {
        Some(index) => (0, index, 0),
        None => (13, 0, 0),
    }
}

/// `koto_compact`: the refusal; what neither desk marks is gone, and the others move together
pub fn compact(marks: [&[u32]; 2], state: &mut State, moved: &mut [u32]) -> u32 {
    if !state.is_fit() {
        return 8;
    }
    let old: Vec<(Vec<u8>, u8)> = state.strings().expect("a fit state").into_iter().map(|(s, owner)| (s.to_vec(), owner)).collect();
    if moved.len() < old.len() || marks.concat().iter().any(|&mark| mark as usize >= old.len()) {
        return 20;
    }
    state.counts = [0; 2];
    for desk in &mut state.desks {
        desk[1] = [0; 2];
    }
    for (i, (string, owner)) in old.into_iter().enumerate() {
        moved[i] = u32::MAX;
        if marks.iter().any(|row| row.contains(&(i as u32))) {
            let [index, start] = state.counts;
            moved[i] = index;
            state.entries[index as usize] = [start, string.len() as u32];
            state.owners[index as usize] = owner;
            state.bytes[start as usize..][..string.len()].copy_from_slice(&string);
            for (kind, more) in [1, string.len() as u32].into_iter().enumerate() {
                state.counts[kind] += more;
                state.desks[owner as usize][1][kind] += more;
            }
        }
    }
    0
}

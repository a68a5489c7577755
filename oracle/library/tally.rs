//! What was asked, what was answered, and what differed.

use std::collections::{BTreeMap, HashSet};
use std::hash::{DefaultHasher, Hash, Hasher};

/// Each call, and the answers that it must have given at least once
const WANTED: [(&str, &[u32]); 15] = [
    ("read_char", &[0, 3, 15]),
    ("check_utf8", &[0, 3, 15]),
    ("check_table", &[0, 2]),
    ("read_table", &[0, 2, 4, 14]),
    ("first_cluster", &[0, 1, 2, 3, 15, 17]),
    ("scan", &[0, 1, 2, 3, 4, 5, 15, 17]),
    ("scan_half", &[0, 1, 2, 3, 4, 5, 15, 17]),
    ("scan_fast", &[0, 1, 2, 3, 4, 5, 15, 17]),
    ("scan_profile", &[0, 1, 2, 3, 4, 5, 15, 17, 21]),
    ("check_list", &[0, 1, 2, 3, 5, 8, 15, 17]),
    ("next", &[0, 8, 9]),
    ("peek", &[0, 6, 7, 8, 9]),
    ("look_ahead", &[0, 7, 8, 9]),
    ("add_string", &[0, 3, 8, 13, 15]),
    ("parse", &[0, 1, 2, 3, 8, 10, 11, 12, 13, 15, 17]),
];

/// The lists that must have been checked at least once, beside those that are refused before the work
const LISTS: [&str; 7] = [
    "the source's own",
    "with a record that differs",
    "of another length alone",
    "with another status alone",
    "shorter than their count",
    "5 after a difference",
    "5 and no difference before it",
];

const SHOWN_MOST: usize = 10;

/// Each depth up to this must have been the greatest of some source
const DEPTH_MOST: u32 = 64;

/// In the code of a template that stands in another there are so many modes
const NESTED: u32 = 4;

#[derive(Default)]
pub struct Tally {
    answers: BTreeMap<(&'static str, u32), u64>,
    /// How many of what were judged by whom
    judged: BTreeMap<(&'static str, &'static str), u64>,
    /// How many sources were scanned whose deepest record has this depth
    depths: BTreeMap<u32, u64>,
    seen: HashSet<u64>,
    differences: usize,
}

impl Tally {
    /// Is this input, of this group, the first of its kind?
    pub fn is_new(&mut self, group: &str, input: &[u8]) -> bool {
        let mut hasher = DefaultHasher::new();
        (group, input).hash(&mut hasher);
        self.seen.insert(hasher.finish())
    }

    pub fn count(&mut self, what: &'static str, host: &'static str) {
        *self.judged.entry((what, host)).or_default() += 1;
    }

    /// Notes the depth of a source's deepest record, if it has one.
    pub fn deepest(&mut self, depth: Option<u32>) {
        if let Some(depth) = depth {
            *self.depths.entry(depth).or_default() += 1;
        }
    }

    /// Notes a call's answer, and whether all of it is as wanted.
    pub fn note<T: PartialEq + std::fmt::Debug>(
        &mut self,
        call: &'static str,
        number: u32,
        got: &T,
        wanted: &T,
        input: &[u8],
    ) {
        *self.answers.entry((call, number)).or_default() += 1;
        if got == wanted {
            return;
        }
        self.differences += 1;
        if self.differences <= SHOWN_MOST {
            let cut = |text: String| text.chars().take(600).collect::<String>();
            println!("{call} differs on {}", cut(hex(input)));
            println!("    library {}", cut(format!("{got:?}")));
            println!("    wanted  {}", cut(format!("{wanted:?}")));
        }
    }

    /// Notes a buffer that was written where it must not be.
    pub fn spoiled(&mut self, call: &str, input: &[u8]) {
        self.differences += 1;
        println!(
            "{call} wrote beside a lent buffer, or into one that it may only read: {}",
            hex(&input[..input.len().min(200)])
        );
    }

    /// Prints the counts. Were all answers given, and all as wanted?
    pub fn report(&self) -> bool {
        let mut fine = self.differences == 0;
        for (call, wanted) in WANTED {
            let shown = wanted.iter().map(|number| {
                let count = self.answers.get(&(call, *number)).copied().unwrap_or(0);
                fine &= count > 0;
                format!("{number}: {count}")
            });
            println!("koto_{call}: {}", shown.collect::<Vec<_>>().join(", "));
        }
        for ((what, host), count) in &self.judged {
            println!("{what}, {host}: {count}");
        }
        let depths: Vec<String> = self.depths.iter().map(|(depth, count)| format!("{depth}: {count}")).collect();
        println!("sources by the depth of their deepest record: {}", depths.join(", "));
        let nested: u64 = self.depths.range(NESTED..).map(|(_, count)| count).sum();
        println!("sources with a template in a template, or deeper: {nested}");
        fine &= LISTS.iter().all(|kind| self.judged.contains_key(&("lists", *kind)));
        fine &= (0..=DEPTH_MOST).all(|depth| self.depths.contains_key(&depth));
        let calls: u64 = self.answers.values().sum();
        let verdict = match (self.differences, fine) {
            (0, true) => "no difference",
            (0, false) => "no difference, but NOT ALL TRIED: an answer, a kind of list or a depth above has no call",
            _ => "DIFFERENT",
        };
        println!("{calls} calls, {verdict}");
        fine
    }
}

fn hex(bytes: &[u8]) -> String {
    bytes.iter().map(|byte| format!("{byte:02x}")).collect()
}

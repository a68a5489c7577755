//! The build over a lent table against the one over the real crates.

use crate::{Asked, checked, fail, host_table, kpt, number, published, put, rich};
use answers::Pool;
use std::process::exit;

/// `agree FILE SEED COUNT`: over the host's table and in its edition, the build over a lent table against the one over the host's crates
pub fn agree(asked: &Asked) {
    let tests = published(&asked.words);
    let [seed, count] = asked.words[1..].iter().map(|word| number(word)).collect::<Vec<_>>()[..] else {
        fail("agree takes a file, a seed and a count");
    };
    lent::lend(&checked(host_table(asked)), asked.edition);
    // The newer data tell which texts are rich, also in what the older ones do not know.
    let kinds = rich::Kinds::of(&kpt::full());
    let mut dice = rich::Dice::new(seed as u64);
    let (real, lent) = (&asked.judge, koto_lent::JUDGE);
    let pool = || Pool { strings: vec![], entries: usize::MAX, bytes: usize::MAX };
    let scans_same = |source: &str| (real.scan)(source, usize::MAX) == (lent.scan)(source, usize::MAX);

    let as_published = tests.iter().filter(|(text, lengths)| (real.clusters)(text) == *lengths).count();
    put(&format!(
        "{} published tests of Unicode 15.1, the host's crate answers {as_published} as published\n",
        tests.len()
    ));

    // 1 for a case that is the same on both sides; one that differs is shown
    let count_same = |is_same: bool, what: &str, text: &str| {
        if !is_same {
            put(&format!("{what} of {text:?} differ\n"));
        }
        usize::from(is_same)
    };
    let mut texts: Vec<String> = tests.into_iter().map(|(text, _)| text).collect();
    texts.extend(
        (0..count).map(|i| if i % 2 == 0 { kinds.text(&mut dice, 400) } else { kinds.conjuncts(&mut dice, 400) }),
    );
    let (mut clusters, mut scans, mut characters) = (0, 0, 0);
    for text in &texts {
        let is_first_same = (real.first_cluster)(text) == (lent.first_cluster)(text);
        clusters += count_same(is_first_same && (real.clusters)(text) == (lent.clusters)(text), "clusters", text);
        let is_same = scans_same(text)
            && scans_same(&format!("'{{x:{text}}}'"))
            && (real.parse)(text, &pool()) == (lent.parse)(text, &pool());
        scans += count_same(is_same, "readings", text);
    }
    for c in '\0'..=char::MAX {
        let is_same = scans_same(&c.to_string()) && scans_same(&format!("a{c}")) && scans_same(&format!("'{c}'"));
        characters += count_same(is_same, "readings", &c.to_string());
    }
    let all = texts.len();
    let all_characters = ('\0'..=char::MAX).count();
    put(&format!("{clusters} of {all} texts have the same clusters, {count} of them random\n"));
    put(&format!(
        "{scans} of {all} texts are the same as a script, as format options in a script and as a format string\n"
    ));
    put(&format!(
        "{characters} of {all_characters} characters are the same first in a script, in a name and in a string\n"
    ));
    exit(i32::from((clusters, scans, characters) != (all, all, all_characters)))
}

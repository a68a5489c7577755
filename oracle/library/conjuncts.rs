//! Texts rich in Indic conjuncts, on which the editions differ: as sources, in format options and as format strings, by every host.

use crate::hosts::{ALL, LEFT_OUT, NEWER};
use crate::pools::some_pool;
use crate::rich::Dice;
use crate::{Run, formats, scans};

/// Most format options may be read to their end.
const AROUND: [(&str, &str); 4] = [("'{x:", "}'"), ("'{x:", "<5}'"), ("'{x:", "}<5}'"), ("'{x:}", "^}'")];

pub fn compare(run: &mut Run, dice: &mut Dice, count: usize) {
    let (mut done, mut scripts, mut options) = (0, 0, 0);
    // How many clusters, lists and parses are others in edition 1 than in edition 2 over the full table
    let mut differ = [0; 3];
    while done < count {
        let text = run.kinds.conjuncts(dice, 60);
        if run.tally.is_new("conjuncts", text.as_bytes()) {
            done += 1;
            for host in ALL {
                scans::by_host(run, dice, text.as_bytes(), &host);
            }
            let cluster = |host: crate::hosts::Host| (host.judge.first_cluster)(&text);
            differ[0] += usize::from(cluster(NEWER) != cluster(LEFT_OUT));
        }
        let (before, after) = AROUND[dice.below(AROUND.len())];
        let script = format!("{before}{text}{after}");
        if run.tally.is_new("source", script.as_bytes()) {
            scripts += 1;
            for host in ALL {
                scans::by_host(run, dice, script.as_bytes(), &host);
            }
            let scan = |host: crate::hosts::Host| (host.judge.scan)(&script, usize::MAX);
            differ[1] += usize::from(scan(NEWER) != scan(LEFT_OUT));
        }
        let format = (text + &formats::shape(dice)).into_bytes();
        if run.tally.is_new("format", &format) {
            options += 1;
            let (pool, rows) = some_pool(dice, &format);
            let [with, without, _] = ALL.map(|host| formats::by_host(run, &format, pool.as_ref(), &rows, &host));
            differ[2] += usize::from(with != without);
        }
    }
    let [clusters, lists, parses] = differ;
    println!(
        "conjuncts: {done} texts, {clusters} with another first cluster in edition 1 than in 2; by three hosts each"
    );
    println!(
        "           {scripts} scripts, {lists} with another list; {options} format strings, {parses} parsed otherwise"
    );
}

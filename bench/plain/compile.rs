//! The steps of `razor compile` in plain Rust, as the measure of their times: `compile phases TIMES HASH < LIST` does them so
//! often and prints for each what `razor_bench phases` prints, what came of it and its nanoseconds;
//! `compile table TIMES HASH < LIST` prints the table that `razor compile` prints. HASH is `sip`, the default of `HashMap`,
//! or `multiply`, that of `hash.rs`.

mod building;
mod clock;
mod hash;
mod minimising;
mod planning;
mod reading;
mod removing;
#[allow(dead_code)]
mod span;
#[allow(dead_code)]
mod store;
mod writing;

use clock::timed;
use hash::Multiply;
use reading::{List, read};
use removing::Removal;
use std::hash::{BuildHasher, BuildHasherDefault, RandomState};
use std::io::{Read, Write};
use store::Store;

/// A list that composes to more entries is refused.
const MOST_ENTRIES: u128 = 262_144;

/// What comes of each step, and its nanoseconds.
fn phases<S: BuildHasher + Default>(bytes: &[u8]) -> String {
    let (list, time) = timed(|| read::<S>(bytes).expect("a good list"));
    let mut told = format!("rules {} nanoseconds {time}\n", list.rules.len());
    let ((store, root), time) = timed(|| {
        let mut store = Store::<S>::new();
        let root = store.build(&list.rules);
        (store, root)
    });
    told += &format!("nodes {} nanoseconds {time}\n", store.nodes.len());
    let (cost, time) = timed(|| planning::cost(&store, root));
    told += &format!("cost {cost} nanoseconds {time}\n");
    if cost > MOST_ENTRIES {
        return told;
    }
    let (plans, time) = timed(|| planning::plans(&store, root));
    let (count, sum) = plans.checksum();
    told += &format!("rows {count} checksum {sum} nanoseconds {time}\n");
    let (entries, time) = timed(|| {
        let kept = Removal::<S>::default().of_diagram(&store, &plans, root);
        writing::entries(&store, &plans, root, &kept.kept)
    });
    told + &format!("entries {} nanoseconds {time}\n", entries.len())
}

fn table<S: BuildHasher + Default>(bytes: &[u8]) -> String {
    let list: List<S> = read(bytes).expect("a good list");
    let mut store = Store::<S>::new();
    let root = store.build(&list.rules);
    let plans = planning::plans(&store, root);
    let kept = Removal::<S>::default().of_diagram(&store, &plans, root);
    let entries = writing::entries(&store, &plans, root, &kept.kept);
    writing::table(&list, plans.costs[root as usize], &entries)
}

fn run<S: BuildHasher + Default>(step: &str, bytes: &[u8]) -> String {
    match step {
        "phases" => phases::<S>(bytes),
        "table" => table::<S>(bytes),
        _ => panic!("the work is phases or table"),
    }
}

fn main() {
    let words: Vec<String> = std::env::args().skip(1).collect();
    let [step, times, hash] = &words[..] else { panic!("compile STEP TIMES HASH < LIST") };
    let mut bytes = Vec::new();
    std::io::stdin().read_to_end(&mut bytes).expect("a list on standard input");
    for _ in 0..times.parse().expect("a number of times") {
        let text = match hash.as_str() {
            "sip" => run::<RandomState>(step, &bytes),
            "multiply" => run::<BuildHasherDefault<Multiply>>(step, &bytes),
            _ => panic!("the hash is sip or multiply"),
        };
        std::io::stdout().write_all(text.as_bytes()).expect("standard output");
    }
}

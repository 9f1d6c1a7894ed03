//! The work of `razor_bench read TIMES` in plain Rust, as the measure of its time and room:
//! `lists TIMES HASH < LIST`.
//!
//! It reads a filter list with the same checks, in the same order, into the same rules, and numbers the
//! names by a `HashMap`. HASH is `sip`, the default of `HashMap`, or `multiply`, that of `hash.rs`. It
//! prints the line that `razor_bench` prints.

mod hash;
mod reading;
#[allow(dead_code)]
mod span;

use hash::Multiply;
use reading::{Rule, read};
use span::Boxed;
use std::hash::{BuildHasher, BuildHasherDefault, RandomState};
use std::io::Read;

fn checksum(rules: &[Rule]) -> u64 {
    let mut sum = 0u64;
    let mut add = |number: u32| sum = sum.wrapping_mul(31).wrapping_add(number.into());
    for rule in rules {
        for span in (0..5).flat_map(|field| rule.set(field)) {
            add(span.lo);
            add(span.hi);
        }
        add(rule.decision);
    }
    sum
}

fn run<S: BuildHasher + Default>(bytes: &[u8], times: u32) {
    for _ in 0..times {
        let list = read::<S>(bytes).expect("a good list");
        println!("rules {} names {} flagged {} checksum {}", list.rules.len(), list.names.len(), list.flagged, checksum(&list.rules));
    }
}

fn main() {
    let words: Vec<String> = std::env::args().skip(1).collect();
    let [times, hash] = &words[..] else { panic!("lists TIMES HASH < LIST") };
    let times = times.parse().expect("a number of times");
    let mut bytes = Vec::new();
    std::io::stdin().read_to_end(&mut bytes).expect("a list on standard input");
    match hash.as_str() {
        "sip" => run::<RandomState>(&bytes, times),
        "multiply" => run::<BuildHasherDefault<Multiply>>(&bytes, times),
        _ => panic!("the hash is sip or multiply"),
    }
}

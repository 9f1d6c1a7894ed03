//! The work of `razor_bench build TIMES` in plain Rust, as the measure of its time and room: `build TIMES HASH < LIST`.
//!
//! The same steps: a list is halved, a rule becomes the diagram of its sets, and a diagram is laid over another by one walk
//! over pairs of nodes that keeps what came of each pair. Nodes are kept once, in a `HashMap` and a `Vec` that share their
//! edges. HASH is `sip`, the default of `HashMap`, or `multiply`, that of `hash.rs`. It prints the line that `razor_bench`
//! prints.

mod building;
mod hash;
#[allow(dead_code)]
mod reading;
#[allow(dead_code)]
mod span;
#[allow(dead_code)]
mod store;

use hash::Multiply;
use reading::{Rule, read};
use span::Boxed;
use std::hash::{BuildHasher, BuildHasherDefault, RandomState};
use std::io::Read;
use store::{Id, Store};

/// The answers at the least and at the greatest header of each rule, as a checksum.
fn checksum<S: BuildHasher + Default>(store: &Store<S>, root: Id, rules: &[Rule]) -> u64 {
    let mut checksum = 0u64;
    for rule in rules {
        let least: [u32; 5] = std::array::from_fn(|field| rule.set(field)[0].lo);
        let greatest: [u32; 5] = std::array::from_fn(|field| rule.set(field)[rule.set(field).len() - 1].hi);
        for header in [least, greatest] {
            checksum = checksum.wrapping_mul(31).wrapping_add(store.answer(root, header).into());
        }
    }
    checksum
}

fn run<S: BuildHasher + Default>(bytes: &[u8], times: u32) {
    let rules = read::<S>(bytes).expect("a good list").rules;
    for _ in 0..times {
        let mut store = Store::<S>::new();
        let root = store.build(&rules);
        let reached = store.reached(root);
        let nodes = store.nodes.len();
        let checksum = checksum(&store, root, &rules);
        println!("rules {} nodes {nodes} reached {reached} checksum {checksum}", rules.len());
    }
}

fn main() {
    let words: Vec<String> = std::env::args().skip(1).collect();
    let [times, hash] = &words[..] else { panic!("build TIMES HASH < LIST") };
    let times = times.parse().expect("a number of times");
    let mut bytes = Vec::new();
    std::io::stdin().read_to_end(&mut bytes).expect("a list on standard input");
    match hash.as_str() {
        "sip" => run::<RandomState>(&bytes, times),
        "multiply" => run::<BuildHasherDefault<Multiply>>(&bytes, times),
        _ => panic!("the hash is sip or multiply"),
    }
}

//! The work of `razor_bench nodes N` in plain Rust, as the measure of its time and room.
//!
//! A store over `HashMap<Node, usize>` and a `Vec` of the nodes by number: it merges equal neighbours,
//! gives an old node its old number, and tells a node's level. It prints the line that `razor_bench` prints.

use std::collections::HashMap;

const PLACES: u32 = 254;

#[derive(Clone, Copy, PartialEq, Eq, Hash)]
struct Edge {
    hi: u32,
    to: usize,
}

#[derive(Clone, PartialEq, Eq, Hash)]
enum Node {
    Leaf(u32),
    Inner { field: u8, edges: Vec<Edge> },
}

#[derive(Default)]
struct Store {
    numbers: HashMap<Node, usize>,
    nodes: Vec<Node>,
}

impl Store {
    fn level(&self, number: usize) -> u8 {
        match &self.nodes[number] {
            Node::Leaf(_) => 5,
            Node::Inner { field, .. } => *field,
        }
    }

    fn leaf(&mut self, decision: u32) -> usize {
        self.add(Node::Leaf(decision))
    }

    fn make(&mut self, field: u8, edges: &[Edge]) -> usize {
        let mut kept = Vec::with_capacity(edges.len());
        for (place, edge) in edges.iter().enumerate() {
            if place + 1 == edges.len() || edges[place + 1].to != edge.to {
                kept.push(*edge);
            }
        }
        self.add(Node::Inner { field, edges: kept })
    }

    fn add(&mut self, node: Node) -> usize {
        if let Some(&number) = self.numbers.get(&node) {
            return number;
        }
        let number = self.nodes.len();
        self.nodes.push(node.clone());
        self.numbers.insert(node, number);
        number
    }
}

fn leaf(store: &Store, number: u32) -> usize {
    let number = number as usize;
    assert!(store.level(number) == 5, "node {number} is no leaf");
    number
}

fn node(store: &mut Store, leaves: u32, place: u32) -> usize {
    if place < leaves {
        return store.leaf(place);
    }
    let outer = leaf(store, (place - leaves) / PLACES);
    let inner = leaf(store, (place - leaves) / PLACES + 1);
    let middle = (place - leaves) % PLACES + 1;
    let edges = [
        Edge { hi: middle - 1, to: outer },
        Edge { hi: middle, to: inner },
        Edge { hi: 255, to: outer },
    ];
    store.make(4, &edges)
}

fn pass(store: &mut Store, leaves: u32, nodes: u32) -> u64 {
    let mut checksum = 0u64;
    for place in 0..nodes {
        let number = node(store, leaves, place);
        assert!(number == place as usize, "node {place} has another number");
        checksum = checksum.wrapping_mul(31).wrapping_add(number as u64);
    }
    checksum
}

fn main() {
    let nodes: u32 = std::env::args().nth(1).expect("a size").parse().expect("a number");
    let leaves = nodes.min(nodes / PLACES + 2);
    let mut store = Store::default();
    let made = pass(&mut store, leaves, nodes);
    let again = pass(&mut store, leaves, nodes);
    assert!(made == again, "a node has two numbers");
    println!("nodes {} checksum {made}", store.nodes.len());
}

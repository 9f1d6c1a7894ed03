//! What each node of a diagram costs, and its cheapest prefix list, each worked out once.

use crate::minimising::{Minimiser, Piece};
use crate::store::{Id, Store};
use std::collections::HashMap;
use std::hash::BuildHasher;

pub const WIDTHS: [u8; 5] = [32, 32, 16, 16, 8];

/// A row of a node's list, and the child to which its values lead.
#[derive(Clone, Copy)]
pub struct Row {
    pub value: u32,
    pub len: u8,
    pub to: Id,
}

/// By the numbers of nodes; a number that is no node of the diagram costs nothing.
pub struct Plans {
    pub costs: Vec<u128>,
    pub lists: Vec<Vec<Row>>,
}

impl Plans {
    /// How many rows the lists have, and a sum over them that doesn't depend on their order.
    pub fn checksum(&self) -> (usize, u64) {
        let rows = || self.lists.iter().flatten();
        let sum = rows().fold(0u64, |sum, row| sum.wrapping_add(u64::from(row.value) * 64 + u64::from(row.len)));
        (rows().count(), sum)
    }
}

/// Which numbers up to the root's are those of its diagram.
fn reached<S: BuildHasher + Default>(store: &Store<S>, root: Id) -> Vec<bool> {
    let mut reached = vec![false; root as usize + 1];
    reached[root as usize] = true;
    for id in (0..=root).rev() {
        if reached[id as usize] {
            store.edges(id).iter().for_each(|edge| reached[edge.to as usize] = true);
        }
    }
    reached
}

/// The labels of one node after another, in rooms that are lent to each.
#[derive(Default)]
struct Labels<S> {
    places: HashMap<Id, u32, S>,
    children: Vec<Id>,
    pieces: Vec<Piece>,
    weights: Vec<u128>,
}

impl<S: BuildHasher + Default> Labels<S> {
    fn of(&mut self, store: &Store<S>, id: Id, costs: &[u128]) {
        self.places.clear();
        self.children.clear();
        self.pieces.clear();
        for edge in store.edges(id) {
            let next = self.children.len() as u32;
            let label = *self.places.entry(edge.to).or_insert(next);
            if label == next {
                self.children.push(edge.to);
            }
            self.pieces.push(Piece { hi: edge.hi, label });
        }
        self.weights.clear();
        self.weights.extend(self.children.iter().map(|&child| costs[child as usize]));
    }
}

/// What the diagram costs.
pub fn cost<S: BuildHasher + Default>(store: &Store<S>, root: Id) -> u128 {
    let mut minimiser = Minimiser::default();
    let mut labels = Labels::<S>::default();
    let mut costs = vec![0; root as usize + 1];
    for (id, reached) in (0..).zip(reached(store, root)) {
        if reached {
            costs[id as usize] = match store.decision(id) {
                Some(_) => 1,
                None => {
                    labels.of(store, id, &costs);
                    minimiser.cost(&labels.pieces, &labels.weights, WIDTHS[store.level(id)])
                }
            };
        }
    }
    costs[root as usize]
}

/// The same with the lists.
pub fn plans<S: BuildHasher + Default>(store: &Store<S>, root: Id) -> Plans {
    let mut minimiser = Minimiser::default();
    let mut labels = Labels::<S>::default();
    let mut plans = Plans { costs: vec![0; root as usize + 1], lists: vec![Vec::new(); root as usize + 1] };
    for (id, reached) in (0..).zip(reached(store, root)) {
        if reached {
            plans.costs[id as usize] = 1;
            if store.decision(id).is_none() {
                labels.of(store, id, &plans.costs);
                let (cost, rows) = minimiser.minimise(&labels.pieces, &labels.weights, WIDTHS[store.level(id)]);
                plans.costs[id as usize] = cost;
                plans.lists[id as usize] =
                    rows.iter().map(|row| Row { value: row.value, len: row.len, to: labels.children[row.label as usize] }).collect();
            }
        }
    }
    plans
}

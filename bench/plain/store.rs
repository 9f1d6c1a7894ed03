//! Diagrams whose nodes are kept once, in a `HashMap` and a `Vec` that share their edges.

use crate::span::GREATEST;
use std::collections::HashMap;
use std::hash::BuildHasher;
use std::rc::Rc;

/// The number of a node.
pub type Id = u32;

#[derive(Clone, Copy, PartialEq, Eq, Hash)]
pub struct Edge {
    pub hi: u32,
    pub to: Id,
}

#[derive(Clone, PartialEq, Eq, Hash)]
pub enum Node {
    Leaf(u32),
    Inner { field: u8, edges: Rc<[Edge]> },
}

pub struct Store<S> {
    numbers: HashMap<Node, Id, S>,
    pub nodes: Vec<Node>,
    pub nothing: [Id; 6],
}

impl<S: BuildHasher + Default> Store<S> {
    pub fn new() -> Self {
        let mut store = Store { numbers: HashMap::default(), nodes: Vec::new(), nothing: [0; 6] };
        for field in (0..5u8).rev() {
            let level = usize::from(field);
            store.nothing[5] = store.leaf(0);
            let edge = Edge { hi: GREATEST[level], to: store.nothing[level + 1] };
            store.nothing[level] = store.make(field, &[edge]);
        }
        store
    }

    /// The edges of a node; a leaf has none.
    pub fn edges(&self, id: Id) -> &[Edge] {
        match &self.nodes[id as usize] {
            Node::Leaf(_) => &[],
            Node::Inner { edges, .. } => edges,
        }
    }

    /// The decision of a leaf.
    pub fn decision(&self, id: Id) -> Option<u32> {
        match &self.nodes[id as usize] {
            Node::Leaf(decision) => Some(*decision),
            Node::Inner { .. } => None,
        }
    }

    /// For each level the node that answers one decision everywhere.
    pub fn constants(&mut self, decision: u32) -> [Id; 6] {
        let mut ids = [self.leaf(decision); 6];
        for level in (0..5).rev() {
            ids[level] = self.make(level as u8, &[Edge { hi: GREATEST[level], to: ids[level + 1] }]);
        }
        ids
    }

    /// The parts on which two inner nodes of one level lead to one child each: their ends, and both children.
    pub fn joint(&self, left: Id, right: Id) -> Vec<(u32, Id, Id)> {
        let (left, right) = (self.edges(left), self.edges(right));
        let mut parts = Vec::with_capacity(left.len() + right.len());
        let (mut i, mut j) = (0, 0);
        while i < left.len() && j < right.len() {
            let hi = left[i].hi.min(right[j].hi);
            parts.push((hi, left[i].to, right[j].to));
            i += usize::from(left[i].hi == hi);
            j += usize::from(right[j].hi == hi);
        }
        parts
    }

    pub fn level(&self, id: Id) -> usize {
        match &self.nodes[id as usize] {
            Node::Leaf(_) => 5,
            Node::Inner { field, .. } => usize::from(*field),
        }
    }

    pub fn leaf(&mut self, decision: u32) -> Id {
        self.add(Node::Leaf(decision))
    }

    pub fn make(&mut self, field: u8, edges: &[Edge]) -> Id {
        let mut kept: Vec<Edge> = Vec::with_capacity(edges.len());
        for (place, edge) in edges.iter().enumerate() {
            if place + 1 == edges.len() || edges[place + 1].to != edge.to {
                kept.push(*edge);
            }
        }
        self.add(Node::Inner { field, edges: kept.into() })
    }

    fn add(&mut self, node: Node) -> Id {
        if let Some(&id) = self.numbers.get(&node) {
            return id;
        }
        let id = self.nodes.len() as Id;
        self.nodes.push(node.clone());
        self.numbers.insert(node, id);
        id
    }

    pub fn answer(&self, root: Id, header: [u32; 5]) -> u32 {
        let mut at = root;
        for value in header {
            let Node::Inner { edges, .. } = &self.nodes[at as usize] else {
                unreachable!("a node above the leaves");
            };
            at = edges[edges.partition_point(|edge| edge.hi < value)].to;
        }
        match self.nodes[at as usize] {
            Node::Leaf(decision) => decision,
            Node::Inner { .. } => unreachable!("a leaf"),
        }
    }

    /// How many nodes the diagram under the root has.
    pub fn reached(&self, root: Id) -> usize {
        let mut reached = vec![false; self.nodes.len()];
        reached[root as usize] = true;
        for id in (0..=root as usize).rev() {
            if let (true, Node::Inner { edges, .. }) = (reached[id], &self.nodes[id]) {
                edges.iter().for_each(|edge| reached[edge.to as usize] = true);
            }
        }
        reached.iter().filter(|&&is| is).count()
    }
}

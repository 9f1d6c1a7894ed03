//! The removal of redundant entries, by blocks of the diagram's nodes.
//!
//! A block is a list of entries over the fields from a level on: one entry with no field left, a layer of runs that rise
//! and are apart, or two blocks in sequence. Its cover is the set of the values that some entry matches. A context is a
//! pair: what the kept entries behind a block answer, and what the entries before it match.

use crate::planning::{Plans, Row, WIDTHS};
use crate::span::{GREATEST, Span};
use crate::store::{Edge, Id, Store};
use std::collections::HashMap;
use std::hash::BuildHasher;
use std::rc::Rc;

#[derive(Clone, Copy, PartialEq, Eq, Hash)]
pub struct Pair {
    pub after: Id,
    pub met: Id,
}

#[derive(Clone, Copy, PartialEq, Eq, Hash)]
struct Run {
    span: Span,
    block: u32,
}

#[derive(Clone)]
enum Block {
    Last(u32),
    Layer(Rc<[Run]>),
    Two(u32, u32),
}

#[derive(Clone, Copy)]
struct Cover {
    level: u8,
    set: Id,
}

/// Which entries of a block are kept, first entry first, and what each context then answers.
pub struct Sifted {
    pub kept: Box<[bool]>,
    pub after: Box<[Id]>,
}

const NO: u32 = u32::MAX;

pub struct Removal<S> {
    store: Store<S>,
    none: [Id; 6],
    full: [Id; 6],
    unions: HashMap<(Id, Id), Id, S>,
    blocks: Vec<Block>,
    covers: Vec<Cover>,
    /// By node of the diagram: the block of its composed entries, or NO.
    of_node: Vec<u32>,
    memo: HashMap<(u32, Box<[Pair]>), Rc<Sifted>, S>,
}

impl<S: BuildHasher + Default> Default for Removal<S> {
    fn default() -> Self {
        let mut store = Store::new();
        let none = store.constants(0);
        let full = store.constants(1);
        Removal {
            store,
            none,
            full,
            unions: HashMap::default(),
            blocks: Vec::new(),
            covers: Vec::new(),
            of_node: Vec::new(),
            memo: HashMap::default(),
        }
    }
}

impl<S: BuildHasher + Default> Removal<S> {
    /// Which entries that the diagram composes are kept, first entry first: the block of a node is known by its number.
    pub fn of_diagram(&mut self, diagram: &Store<S>, plans: &Plans, root: Id) -> Rc<Sifted> {
        let root = self.block_of_node(diagram, plans, root);
        self.sift_root(root)
    }

    fn sift_root(&mut self, root: u32) -> Rc<Sifted> {
        let none = self.none[0];
        self.sift(root, &[Pair { after: none, met: none }])
    }

    // The blocks of nodes: the rows of a node's cheapest list are its runs.

    fn block_of_node(&mut self, diagram: &Store<S>, plans: &Plans, id: Id) -> u32 {
        if let Some(&block) = self.of_node.get(id as usize).filter(|&&b| b != NO) {
            return block;
        }
        let block = match diagram.decision(id) {
            Some(decision) => self.add(Block::Last(decision), 5, self.full[5]),
            None => {
                let level = diagram.level(id);
                let mut runs: Vec<Run> = Vec::with_capacity(plans.lists[id as usize].len());
                for row in &plans.lists[id as usize] {
                    let block = self.block_of_node(diagram, plans, row.to);
                    runs.push(Run { span: span(row, WIDTHS[level]), block });
                }
                self.of_runs(level, &runs)
            }
        };
        if self.of_node.len() <= id as usize {
            self.of_node.resize(diagram.nodes.len(), NO);
        }
        self.of_node[id as usize] = block;
        block
    }

    // Both.

    fn of_runs(&mut self, level: usize, runs: &[Run]) -> u32 {
        let mut numbers = Vec::new();
        let mut rest = runs;
        while !rest.is_empty() {
            let rises = rest.windows(2).take_while(|w| w[0].span.hi < w[1].span.lo).count();
            let (layer, others) = rest.split_at(rises + 1);
            let placed: Vec<(Span, Id)> = layer.iter().map(|r| (r.span, self.covers[r.block as usize].set)).collect();
            let set = self.laid(level, self.none[level], &placed);
            numbers.push(self.add(Block::Layer(layer.into()), level, set));
            rest = others;
        }
        self.sequence(level, &numbers)
    }

    fn sequence(&mut self, level: usize, numbers: &[u32]) -> u32 {
        if let [one] = numbers {
            return *one;
        }
        let (first, second) = numbers.split_at(numbers.len() / 2);
        let first = self.sequence(level, first);
        let second = self.sequence(level, second);
        let set = self.union(level, self.covers[first as usize].set, self.covers[second as usize].set);
        self.add(Block::Two(first, second), level, set)
    }

    fn add(&mut self, block: Block, level: usize, set: Id) -> u32 {
        self.blocks.push(block);
        self.covers.push(Cover { level: level as u8, set });
        self.blocks.len() as u32 - 1
    }

    // What is kept.

    fn sift(&mut self, number: u32, contexts: &[Pair]) -> Rc<Sifted> {
        match self.blocks[number as usize].clone() {
            Block::Last(decision) => {
                let wanted =
                    contexts.iter().any(|c| c.met == self.none[5] && self.store.decision(c.after) != Some(decision));
                let leaf = self.store.leaf(decision);
                let after = contexts.iter().map(|c| if wanted { leaf } else { c.after }).collect();
                Rc::new(Sifted { kept: [wanted].into(), after })
            }
            Block::Two(first, second) => {
                let Cover { level, set } = self.covers[first as usize];
                let behind: Vec<Pair> = contexts
                    .iter()
                    .map(|c| Pair { after: c.after, met: self.union(usize::from(level), c.met, set) })
                    .collect();
                let later = self.sift(second, &behind);
                let before: Vec<Pair> =
                    contexts.iter().zip(later.after.iter()).map(|(c, &after)| Pair { after, met: c.met }).collect();
                let earlier = self.sift(first, &before);
                let kept = earlier.kept.iter().chain(later.kept.iter()).copied().collect();
                Rc::new(Sifted { kept, after: earlier.after.clone() })
            }
            Block::Layer(runs) => {
                let level = usize::from(self.covers[number as usize].level);
                let mut kept: Vec<bool> = Vec::new();
                // For each context where it leads on, span by span.
                let mut changes: Vec<Vec<(Span, Id)>> = vec![Vec::new(); contexts.len()];
                for run in runs.iter() {
                    self.sift_run(*run, contexts, &mut kept, &mut changes);
                }
                let after = contexts
                    .iter()
                    .zip(&changes)
                    .map(|(c, placed)| if placed.is_empty() { c.after } else { self.laid(level, c.after, placed) })
                    .collect();
                Rc::new(Sifted { kept: kept.into(), after })
            }
        }
    }

    fn sift_run(&mut self, run: Run, contexts: &[Pair], kept: &mut Vec<bool>, changes: &mut [Vec<(Span, Id)>]) {
        let mut distinct = Distinct::<S>::default();
        // For each context the ends of the parts of the span, and the places of their pairs.
        let mut ends: Vec<(u32, u32)> = Vec::new();
        let mut counts: Vec<usize> = Vec::with_capacity(contexts.len());
        for c in contexts {
            let (left, right) = (self.store.edges(c.after), self.store.edges(c.met));
            let mut i = left.partition_point(|e| e.hi < run.span.lo);
            let mut j = right.partition_point(|e| e.hi < run.span.lo);
            loop {
                let hi = left[i].hi.min(right[j].hi).min(run.span.hi);
                ends.push((hi, distinct.place(Pair { after: left[i].to, met: right[j].to })));
                if hi == run.span.hi {
                    break;
                }
                i += usize::from(left[i].hi == hi);
                j += usize::from(right[j].hi == hi);
            }
            counts.push(ends.len());
        }
        let key = (run.block, distinct.pairs.into_boxed_slice());
        let inner = match self.memo.get(&key) {
            Some(known) => known.clone(),
            None => {
                let inner = self.sift(run.block, &key.1);
                self.memo.insert(key, inner.clone());
                inner
            }
        };
        kept.extend_from_slice(&inner.kept);
        if inner.kept.contains(&true) {
            let mut at = 0;
            for (own, &end) in changes.iter_mut().zip(&counts) {
                let mut lo = run.span.lo;
                for &(hi, place) in &ends[at..end] {
                    own.push((Span { lo, hi }, inner.after[place as usize]));
                    lo = hi.wrapping_add(1);
                }
                at = end;
            }
        }
    }

    // Diagrams of sets and of answers.

    fn union(&mut self, level: usize, x: Id, y: Id) -> Id {
        if x == y || x == self.full[level] || y == self.none[level] {
            return x;
        }
        if y == self.full[level] || x == self.none[level] {
            return y;
        }
        if let Some(&done) = self.unions.get(&(x, y)) {
            return done;
        }
        let edges: Vec<Edge> =
            self.store.joint(x, y).into_iter().map(|(hi, x, y)| Edge { hi, to: self.union(level + 1, x, y) }).collect();
        let done = self.store.make(level as u8, &edges);
        self.unions.insert((x, y), done);
        done
    }

    /// The node that leads on as placed in the rising spans, and elsewhere as the base does.
    fn laid(&mut self, level: usize, base: Id, placed: &[(Span, Id)]) -> Id {
        let old = self.store.edges(base);
        let top = GREATEST[level];
        let mut edges: Vec<Edge> = Vec::with_capacity(old.len() + 2 * placed.len());
        let mut k = 0;
        let mut lo = 0;
        for &(span, to) in placed {
            while old[k].hi < span.lo {
                add_edge(&mut edges, old[k]);
                k += 1;
            }
            if lo < span.lo && edges.last().is_none_or(|e| e.hi < span.lo - 1) {
                add_edge(&mut edges, Edge { hi: span.lo - 1, to: old[k].to });
            }
            add_edge(&mut edges, Edge { hi: span.hi, to });
            while k < old.len() && old[k].hi <= span.hi {
                k += 1;
            }
            lo = span.hi.wrapping_add(1);
            if span.hi == top {
                break;
            }
        }
        for &edge in &old[k..] {
            add_edge(&mut edges, edge);
        }
        self.store.make(level as u8, &edges)
    }
}

/// The values of a row's prefix.
fn span(row: &Row, width: u8) -> Span {
    let free = ((1u64 << (width - row.len)) - 1) as u32;
    Span { lo: row.value, hi: row.value | free }
}

/// Adds an edge behind others; neighbours that lead to one node become one.
fn add_edge(edges: &mut Vec<Edge>, edge: Edge) {
    match edges.last_mut() {
        Some(last) if last.to == edge.to => last.hi = edge.hi,
        _ => edges.push(edge),
    }
}

/// Pairs in their order, each once.
#[derive(Default)]
struct Distinct<S> {
    pairs: Vec<Pair>,
    places: HashMap<Pair, u32, S>,
}

impl<S: BuildHasher + Default> Distinct<S> {
    fn place(&mut self, pair: Pair) -> u32 {
        const FEW: usize = 12;
        let next = self.pairs.len();
        if next < FEW {
            if let Some(place) = self.pairs.iter().position(|p| *p == pair) {
                return place as u32;
            }
        } else {
            if self.places.is_empty() {
                self.places.extend(self.pairs.iter().enumerate().map(|(i, p)| (*p, i as u32)));
            }
            if let Some(&place) = self.places.get(&pair) {
                return place;
            }
            self.places.insert(pair, next as u32);
        }
        self.pairs.push(pair);
        next as u32
    }
}

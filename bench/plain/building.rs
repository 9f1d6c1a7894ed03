//! Diagrams of rule lists: a list is halved, a rule becomes the diagram of its sets, and a diagram is laid over another
//! by one walk over pairs of nodes that keeps what came of each pair.

use crate::span::{Boxed, GREATEST, Span};
use crate::store::{Edge, Id, Node, Store};
use std::collections::HashMap;
use std::hash::BuildHasher;
use std::rc::Rc;

#[derive(Clone, Copy, PartialEq, Eq, Hash)]
pub struct Pair {
    pub upper: Id,
    pub lower: Id,
}

impl<S: BuildHasher + Default> Store<S> {
    fn boxed<R: Boxed>(&mut self, rule: &R) -> Id {
        let mut inside = self.leaf(rule.decision());
        for field in (0..5u8).rev() {
            let level = usize::from(field);
            let outside = self.nothing[level + 1];
            let mut edges = Vec::with_capacity(3);
            for &Span { lo, hi } in rule.set(level) {
                if 0 < lo {
                    edges.push(Edge { hi: lo - 1, to: outside });
                }
                edges.push(Edge { hi, to: inside });
            }
            if edges[edges.len() - 1].hi < GREATEST[level] {
                edges.push(Edge { hi: GREATEST[level], to: outside });
            }
            inside = self.make(field, &edges);
        }
        inside
    }

    pub fn build<R: Boxed>(&mut self, rules: &[R]) -> Id {
        match rules {
            [] => self.nothing[0],
            [rule] => self.boxed(rule),
            _ => {
                let (first, second) = rules.split_at(rules.len() / 2);
                let upper = self.build(first);
                let lower = self.build(second);
                self.lay(&mut HashMap::default(), Pair { upper, lower })
            }
        }
    }

    fn lay(&mut self, memo: &mut HashMap<Pair, Id, S>, pair: Pair) -> Id {
        let nothing = self.nothing[self.level(pair.upper)];
        if pair.upper == nothing {
            return pair.lower;
        }
        if pair.lower == nothing {
            return pair.upper;
        }
        if let Some(&laid) = memo.get(&pair) {
            return laid;
        }
        let laid = match (&self.nodes[pair.upper as usize], &self.nodes[pair.lower as usize]) {
            (Node::Inner { field, edges: upper }, Node::Inner { edges: lower, .. }) => {
                let (field, upper, lower) = (*field, Rc::clone(upper), Rc::clone(lower));
                self.inner(memo, field, &upper, &lower)
            }
            (&Node::Leaf(0), &Node::Leaf(decision)) => self.leaf(decision),
            (&Node::Leaf(decision), _) => self.leaf(decision),
            _ => unreachable!("two nodes of one level"),
        };
        memo.insert(pair, laid);
        laid
    }

    fn inner(&mut self, memo: &mut HashMap<Pair, Id, S>, field: u8, upper: &[Edge], lower: &[Edge]) -> Id {
        let mut edges = Vec::with_capacity(upper.len() + lower.len());
        let (mut left, mut right) = (0, 0);
        while left < upper.len() && right < lower.len() {
            let pair = Pair { upper: upper[left].to, lower: lower[right].to };
            let hi = upper[left].hi.min(lower[right].hi);
            edges.push(Edge { hi, to: self.lay(memo, pair) });
            left += usize::from(upper[left].hi == hi);
            right += usize::from(lower[right].hi == hi);
        }
        self.make(field, &edges)
    }
}

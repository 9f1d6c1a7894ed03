//! The cheapest prefix list of one field, by savings, without a trie.
//!
//! A *part* is the values below one prefix. Let `cost(P, d)` be the least cost of part P where label d is
//! inherited. It is the same, `other(P)`, for all labels that save nothing. The state of a part is its list
//! of savings: `other(P) - cost(P, d)` for each label d where that isn't 0, by rising label. A saving is at
//! most its label's weight, since the part could write a row of that label first; and some label saves all
//! that it weighs.
//!
//! Two halves are joined by adding their savings. Only a label in both lists may then save more than it
//! weighs, and by as much as that, its *gain*, a row of its own makes the part cheaper. Where the greatest
//! gain g isn't 0, the part has a *choice*: it writes a row of the least label e with this gain, unless it
//! inherits e or a label that saves g or more. All savings are g less then, and those that aren't above 0
//! go. So no cost is compared: the cost of the whole is the weights of all parts of one label, less all gains.
//!
//! A part of one label is the choice of that label, and saves the weight of it. So a part that is joined
//! with a part of label y has a gain exactly where y is in its list, and the gain is what stands there.
//!
//! The choices stand in one vector, those below a part before its own.

/// A run of neighbouring values with one label, up to `hi`.
#[derive(Clone, Copy)]
pub struct Piece {
    pub hi: u32,
    pub label: u32,
}

/// A row of a prefix list: the values that begin with the first `len` bits of `value`.
#[derive(Clone, Copy)]
pub struct Row {
    pub value: u32,
    pub len: u8,
    pub label: u32,
}

#[derive(Clone, Copy)]
struct Saving {
    label: u32,
    saves: u128,
}

/// What a part writes: a row with `label` unless it inherits that or one of some further labels, which are
/// those in `also` from its place there to that of the next choice.
#[derive(Clone, Copy)]
struct Choice {
    value: u32,
    bits: u8,
    label: u32,
    /// Place of the first choice below this part.
    below: u32,
    /// Place of the first further label.
    also: u32,
}

/// Rooms that are lent to one call after the other.
#[derive(Default)]
pub struct Minimiser {
    savings: Vec<Saving>,
    choices: Vec<Choice>,
    also: Vec<u32>,
    open: Vec<(usize, u32)>,
}

/// One call. The choices are kept where rows are asked for.
struct Run<'a, const ROWS: bool> {
    pieces: &'a [Piece],
    weights: &'a [u128],
    /// The first piece that reaches above the parts that are done.
    next: usize,
    /// The weights of the parts of one label, less the gains.
    cost: u128,
    /// Whether the part that was joined last has a gain.
    gain: bool,
    m: &'a mut Minimiser,
}

impl Minimiser {
    /// The least cost alone. Neighbours among the pieces have different labels.
    pub fn cost(&mut self, pieces: &[Piece], weights: &[u128], width: u8) -> u128 {
        if let [piece] = pieces {
            return weights[piece.label as usize];
        }
        self.field::<false>(pieces, weights, width).0
    }

    /// The least cost, and the chosen rows: longest first, equal lengths by rising value.
    pub fn minimise(&mut self, pieces: &[Piece], weights: &[u128], width: u8) -> (u128, Vec<Row>) {
        if let [piece] = pieces {
            return (weights[piece.label as usize], vec![Row { value: 0, len: 0, label: piece.label }]);
        }
        let (cost, label) = self.field::<true>(pieces, weights, width);
        // The field writes a row whatever it chose.
        let own = self.choices.last().is_some_and(|c| c.bits == width);
        let mut rows = self.rows(self.choices.len() - usize::from(own), label, width);
        rows.push(Row { value: 0, len: 0, label });
        rows.sort_by_key(|row| row.value);
        rows.sort_by_key(|row| u8::MAX - row.len);
        (cost, rows)
    }

    /// The cost, and the label of the field's row: the least that saves all that it weighs.
    fn field<const ROWS: bool>(&mut self, pieces: &[Piece], weights: &[u128], width: u8) -> (u128, u32) {
        self.savings.clear();
        self.choices.clear();
        self.also.clear();
        let mut run = Run::<ROWS> { pieces, weights, next: 0, cost: 0, gain: false, m: self };
        run.part(u32::from(width));
        let (cost, gain) = (run.cost, run.gain);
        let all = |l: &&Saving| l.saves == weights[l.label as usize];
        let mut label = self.savings.iter().find(all).map_or(u32::MAX, |l| l.label);
        if !gain {
            for piece in pieces {
                if weights[piece.label as usize] == 0 {
                    label = label.min(piece.label);
                }
            }
        }
        (cost, label)
    }

    /// The rows of the parts whose choices stand before `to`, by falling place.
    ///
    /// `open` holds the parts about the choice at hand that changed the label, each with the place of its
    /// first choice and the label that was inherited before.
    fn rows(&mut self, to: usize, label: u32, width: u8) -> Vec<Row> {
        let mut rows = Vec::new();
        self.open.clear();
        let (mut inherited, mut until) = (label, 0);
        let mut end = self.choices.get(to).map_or(self.also.len(), |c| c.also as usize);
        for (place, c) in self.choices[..to].iter().enumerate().rev() {
            while place < until {
                (until, inherited) = self.open.pop().unwrap();
            }
            let also = &self.also[c.also as usize..end];
            end = c.also as usize;
            if c.label == inherited || also.contains(&inherited) {
                continue;
            }
            rows.push(Row { value: c.value, len: width - c.bits, label: c.label });
            if (c.below as usize) < place {
                self.open.push((until, inherited));
                (until, inherited) = (c.below as usize, c.label);
            }
        }
        rows
    }
}

/// The last value of the part.
fn top(low: u32, bits: u32) -> u32 {
    (u64::from(low) + ((1u64 << bits) - 1)) as u32
}

impl<const ROWS: bool> Run<'_, ROWS> {
    /// The part of `bits` bits in which the piece at `next` is the first, and ends below the part's top.
    /// Its list is put on `savings`, its choices on `choices`.
    ///
    /// A part (`from`, `k`), at first the last whole one of the first piece, grows by its sibling. Before
    /// `from` there is only the label of the first piece.
    fn part(&mut self, bits: u32) {
        let (start, below) = (self.m.savings.len(), self.m.choices.len());
        let Piece { hi, label: first } = self.pieces[self.next];
        self.next += 1;
        let mut k = (hi + 1).trailing_zeros();
        let mut from = hi + 1 - (1 << k);
        self.cost += self.weights[first as usize];
        self.choose(from, k, first, below, self.m.also.len());
        self.push(first);
        while k < bits {
            let sibling = from ^ 1 << k;
            let mut label = first;
            if sibling > from {
                let piece = self.pieces[self.next];
                let end = top(sibling, k);
                if piece.hi < end {
                    let middle = self.m.savings.len();
                    self.part(k);
                    k += 1;
                    let also = self.m.also.len();
                    let (g, best) = self.join(start, middle);
                    if g > 0 {
                        self.cost -= g;
                        self.choose(from, k, best, below, also);
                    }
                    self.gain = g > 0;
                    continue;
                }
                self.next += usize::from(piece.hi == end);
                label = piece.label;
            }
            self.cost += self.weights[label as usize];
            let also = self.m.also.len();
            from &= sibling;
            k += 1;
            let g = self.join_one(start, label);
            // Where the part chooses this label and nothing else, the sibling never writes.
            if g == 0 || also < self.m.also.len() {
                self.choose(sibling, k - 1, label, self.m.choices.len(), also);
            }
            if g > 0 {
                self.cost -= g;
                self.choose(from, k, label, below, also);
            }
            self.gain = g > 0;
            if self.gain && label == first && self.m.savings.len() == start + 1 {
                (from, k) = self.stretch(label, from, k, bits);
            }
        }
    }

    /// The greatest part about this one, within `bits`, beside which there is only the label that alone
    /// saves something here, and that this one chose: it has this choice and this list.
    fn stretch(&mut self, label: u32, from: u32, k: u32, bits: u32) -> (u32, u32) {
        let hi = match self.pieces.get(self.next) {
            Some(piece) if piece.label == label => piece.hi,
            _ => return (from, k),
        };
        let wide = bits.min(63 - (u64::from(from) ^ (u64::from(hi) + 1)).leading_zeros());
        if wide <= k {
            return (from, k);
        }
        let from = (u64::from(from) >> wide << wide) as u32;
        self.next += usize::from(top(from, wide) == hi);
        if ROWS {
            let c = self.m.choices.last_mut().unwrap();
            (c.value, c.bits) = (from, wide as u8);
            self.m.also.truncate(c.also as usize);
        }
        (from, wide)
    }

    fn choose(&mut self, value: u32, k: u32, label: u32, below: usize, also: usize) {
        if ROWS {
            self.m.choices.push(Choice { value, bits: k as u8, label, below: below as u32, also: also as u32 });
        }
    }

    /// A list of one label.
    fn push(&mut self, label: u32) {
        let saves = self.weights[label as usize];
        if saves > 0 {
            self.m.savings.push(Saving { label, saves });
        }
    }

    /// Joins the list from `start` on with a list of this label alone, and gives the gain.
    fn join_one(&mut self, start: usize, label: u32) -> u128 {
        let list = &mut self.m.savings;
        let mut at = start;
        while at < list.len() && list[at].label < label {
            at += 1;
        }
        let saves = self.weights[label as usize];
        if at < list.len() && list[at].label == label {
            let g = list[at].saves;
            list[at].saves = saves + g;
            self.lower(start, start, g, label);
            g
        } else {
            if saves > 0 {
                list.insert(at, Saving { label, saves });
            }
            0
        }
    }

    /// Joins the lists from `start` and from `middle` on, and gives the gain and the label that has it.
    fn join(&mut self, start: usize, middle: usize) -> (u128, u32) {
        let end = self.m.savings.len();
        if end == middle + 1 {
            let one = self.m.savings.pop().unwrap();
            return (self.join_one(start, one.label), one.label);
        }
        let (mut i, mut j) = (start, middle);
        let (mut g, mut best) = (0, 0);
        while i < middle && j < end {
            let (x, y) = (self.m.savings[i], self.m.savings[j]);
            let mut one = if x.label <= y.label { x } else { y };
            i += usize::from(x.label <= y.label);
            j += usize::from(y.label <= x.label);
            if x.label == y.label {
                one.saves = x.saves + y.saves;
                let w = self.weights[x.label as usize];
                if one.saves > w + g {
                    (g, best) = (one.saves - w, x.label);
                }
            }
            self.m.savings.push(one);
        }
        for i in i..middle {
            self.m.savings.push(self.m.savings[i]);
        }
        for j in j..end {
            self.m.savings.push(self.m.savings[j]);
        }
        self.lower(start, end, g, best);
        (g, best)
    }

    /// Moves the list from `end` on to `start`, each saving less g, without those that aren't above 0
    /// then. The labels beside `best` that save g or more are put on `also`.
    #[inline]
    fn lower(&mut self, start: usize, end: usize, g: u128, best: u32) {
        let m = &mut *self.m;
        let mut to = start;
        for i in end..m.savings.len() {
            let Saving { label, saves } = m.savings[i];
            if ROWS && g > 0 && saves >= g && label != best {
                m.also.push(label);
            }
            if saves > g {
                m.savings[to] = Saving { label, saves: saves - g };
                to += 1;
            }
        }
        m.savings.truncate(to);
    }
}

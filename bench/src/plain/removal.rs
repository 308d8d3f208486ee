//! Removal of covered candidates in two steps (section 4.3): those covered by one candidate, then those covered by a path of candidates.

use super::candidates::{precedes, Access, Race};
use super::clocks::Order;
use std::cell::OnceCell;

/// Does race s alone cover race r?
#[inline]
fn covers(order: &Order, s: &Race, r: &Race) -> bool {
    order.before(r.first.row, s.first.row) && precedes(order, s.second, r.second)
}

/// The candidates that no single candidate covers, in order, and for each candidate whether it is one of them.
fn remaining(order: &Order, candidates: &[Race]) -> (Vec<Race>, Vec<bool>) {
    let mut left: Vec<Race> = Vec::new();
    let mut stays = Vec::with_capacity(candidates.len());
    for r in candidates {
        let stay = !left.iter().rev().any(|s| covers(order, s, r));
        if stay {
            left.push(*r);
        }
        stays.push(stay);
    }
    (left, stays)
}

/// Bits of the positions of nodes.
#[inline]
fn has(bits: &[u64], i: usize) -> bool {
    bits[i / 64] >> (i % 64) & 1 == 1
}

fn positions(bits: &[u64]) -> impl Iterator<Item = usize> + '_ {
    bits.iter().enumerate().flat_map(|(k, &word)| {
        let rest = std::iter::successors(Some(word), |w| Some(w & w.wrapping_sub(1)));
        rest.take_while(|w| *w != 0).map(move |w| k * 64 + w.trailing_zeros() as usize)
    })
}

/// A row of bits for each node: the nodes from which paths lead to it, the node itself included.
struct Paths {
    words: usize,
    bits: Vec<u64>,
}

impl Paths {
    /// Edges lead from an earlier node to a later one, so rows are closed from the first to the last.
    fn new(order: &Order, nodes: &[Race]) -> Self {
        let words = nodes.len().div_ceil(64);
        let mut paths = Paths { words, bits: vec![0; nodes.len() * words] };
        for (j, next) in nodes.iter().enumerate() {
            let (closed, rest) = paths.bits.split_at_mut(j * words);
            let row = &mut rest[..words];
            row[j / 64] |= 1 << (j % 64);
            for (i, s) in nodes[..j].iter().enumerate().rev() {
                if !has(row, i) && order.before(s.second.row, next.first.row) {
                    join(row, &closed[i * words..][..=i / 64]);
                }
            }
        }
        paths
    }

    fn into(&self, i: usize) -> &[u64] {
        &self.bits[i * self.words..][..=i / 64]
    }
}

fn join(bits: &mut [u64], more: &[u64]) {
    bits.iter_mut().zip(more).for_each(|(x, y)| *x |= y);
}

/// The graph of the remaining candidates; its paths are closed when first asked for.
pub struct Graph<'a> {
    order: &'a Order<'a>,
    nodes: Vec<Race>,
    paths: OnceCell<Paths>,
}

impl<'a> Graph<'a> {
    /// The graph, and for each candidate whether it is a node.
    pub fn new(order: &'a Order<'a>, candidates: &[Race]) -> (Self, Vec<bool>) {
        let (nodes, stays) = remaining(order, candidates);
        (Graph { order, nodes, paths: OnceCell::new() }, stays)
    }

    /// The nodes from which a path leads to one whose second access comes before b.
    fn leading(&self, b: Access) -> Vec<u64> {
        let below = self.nodes.partition_point(|s| s.second.record < b.record);
        let nodes = self.nodes[..below].iter().enumerate();
        let ends: Vec<usize> = nodes.filter(|(_, s)| precedes(self.order, s.second, b)).map(|(i, _)| i).collect();
        let Some(last) = ends.last() else { return Vec::new() };
        let paths = self.paths.get_or_init(|| Paths::new(self.order, &self.nodes));
        let mut bits = vec![0u64; last / 64 + 1];
        for &i in ends.iter().rev() {
            if !has(&bits, i) {
                join(&mut bits, paths.into(i));
            }
        }
        bits
    }

    /// Is the race covered by a path that starts at one of these nodes?
    fn covers(&self, leading: &[u64], r: &Race) -> bool {
        positions(leading).any(|i| self.order.before(r.first.row, self.nodes[i].first.row))
    }

    /// The rows from which paths lead to b, joined entry by entry.
    pub fn sources(&self, b: Access) -> Vec<u16> {
        let mut starts = vec![false; self.order.chains.spots.len()];
        for i in positions(&self.leading(b)) {
            starts[self.nodes[i].first.row as usize] = true;
        }
        self.order.joined(&starts)
    }
}

/// For each candidate, is it open?
pub fn open_marks(order: &Order, candidates: &[Race]) -> Vec<bool> {
    let (graph, stays) = Graph::new(order, candidates);
    let mut open = Vec::with_capacity(graph.nodes.len());
    // those with one second access have the same paths before them
    for group in graph.nodes.chunk_by(|r, s| r.second.record == s.second.record) {
        let leading = graph.leading(group[0].second);
        open.extend(group.iter().map(|r| !graph.covers(&leading, r)));
    }
    let mut open = open.into_iter();
    stays.into_iter().map(|stays| stays && open.next().unwrap()).collect()
}

//! The best by Ellison's cull, labelled towards the end: the graph of all candidates for a word; down the ranking, for each
//! constraint the fewest marks from every node to an end, and whatever costs more dropped. Profiles are nowhere compared.

use crate::candidate::Pair;
use crate::card::Card;
use crate::Profile;

/// A pair that all machines take at a node.
#[derive(Clone, Debug, PartialEq, Eq)]
pub struct Edge {
    pub pair: Pair,
    /// The node that it leads to.
    pub to: usize,
    pub marks: Profile,
}

/// Every way to a complete candidate for a word. A node is an input position with one state for each machine.
#[derive(Clone, Debug)]
pub struct Graph {
    /// For each node its pairs, those with the smaller bytes first.
    pub edges: Vec<Vec<Edge>>,
    /// For each node the ending marks, if a candidate may end there.
    pub endings: Vec<Option<Profile>>,
}

impl Graph {
    /// The graph of a word on an accepted card. The start is node 0.
    pub fn new(card: &Card, word: &[u8]) -> Graph {
        Graph::of_positions(card, &word.iter().map(|&symbol| vec![symbol]).collect::<Vec<_>>())
    }

    /// The graph of the words with one of the symbols of each position, which are in order.
    pub fn of_positions(card: &Card, positions: &[Vec<u8>]) -> Graph {
        let joined = card.states();
        let nodes = (positions.len() + 1) * joined;
        let mut graph = Graph { edges: Vec::new(), endings: vec![None; nodes] };
        for node in 0..nodes {
            let (position, states) = (node / joined, states(card, node % joined));
            let mut edges = Vec::new();
            for input in [0].iter().chain(positions.get(position).into_iter().flatten()) {
                for output in (*input == 0) as u8..=card.symbols {
                    if let Some((next, marks)) = step(card, &states, (*input, output)) {
                        let to = (position + (*input != 0) as usize) * joined + next;
                        edges.push(Edge { pair: (*input, output), to, marks });
                    }
                }
            }
            graph.edges.push(edges);
            if position == positions.len() {
                graph.endings[node] = ending(card, &states);
            }
        }
        graph
    }

    /// From every node the least cost of a way to an end, again and again over all nodes until nothing changes.
    fn least(&self, edge_cost: impl Fn(&Edge) -> u64, ending_cost: impl Fn(&Profile) -> u64) -> Vec<Option<u64>> {
        let mut labels: Vec<Option<u64>> =
            self.endings.iter().map(|ending| ending.as_ref().map(&ending_cost)).collect();
        let mut changed = true;
        while changed {
            changed = false;
            for node in (0..labels.len()).rev() {
                let onward = self.edges[node].iter().filter_map(|edge| Some(edge_cost(edge) + labels[edge.to]?)).min();
                if onward.map_or(false, |cost| labels[node].map_or(true, |old| cost < old)) {
                    labels[node] = onward;
                    changed = true;
                }
            }
        }
        labels
    }

    /// Drops the edges and endings that cost more than the least, and those that lead to no end.
    fn drop_dearer(
        &mut self,
        labels: &[Option<u64>],
        edge_cost: impl Fn(&Edge) -> u64,
        ending_cost: impl Fn(&Profile) -> u64,
    ) {
        for (node, edges) in self.edges.iter_mut().enumerate() {
            edges.retain(|edge| labels[edge.to].map_or(false, |rest| labels[node] == Some(edge_cost(edge) + rest)));
            self.endings[node] = self.endings[node].filter(|ending| labels[node] == Some(ending_cost(ending)));
        }
    }

    /// Leaves the ways with the least cost, that of marks on arcs and at the end.
    pub fn cull_by(&mut self, cost: impl Fn(&Profile) -> u64) {
        let edge_cost = |edge: &Edge| cost(&edge.marks);
        let labels = self.least(edge_cost, &cost);
        self.drop_dearer(&labels, edge_cost, &cost);
    }

    /// Leaves the ways with the fewest marks of one constraint.
    pub fn cull(&mut self, machine: usize) {
        self.cull_by(|marks| marks[machine] as u64);
    }

    /// Leaves the ways with the fewest pairs.
    pub fn cull_pairs(&mut self) {
        let labels = self.least(|_| 1, |_| 0);
        self.drop_dearer(&labels, |_| 1, |_| 0);
    }

    /// The fewest pairs from the start to each node by the ways that are left, if one leads there.
    fn lengths(&self) -> Vec<Option<usize>> {
        let mut lengths = vec![None; self.edges.len()];
        lengths[0] = Some(0);
        let mut list = vec![0];
        for place in 0.. {
            let node = match list.get(place) {
                Some(&node) => node,
                None => break,
            };
            for edge in &self.edges[node] {
                if lengths[edge.to].is_none() {
                    lengths[edge.to] = lengths[node].map(|length| length + 1);
                    list.push(edge.to);
                }
            }
        }
        lengths
    }

    /// Whether the ways that are left from the start, each to an end, differ in length.
    pub fn lengths_differ(&self) -> bool {
        let lengths = self.lengths();
        let reached = || (0..lengths.len()).filter_map(|node| Some((node, lengths[node]?)));
        let mut ends = reached().filter(|&(node, _)| self.endings[node].is_some()).map(|(_, length)| length);
        let first = ends.next();
        ends.any(|length| Some(length) != first)
            || reached().any(|(node, length)| self.edges[node].iter().any(|edge| lengths[edge.to] != Some(length + 1)))
    }

    /// Whether there is more than one way left from the start, each to an end.
    pub fn forks(&self) -> bool {
        let ways = |node: usize| self.edges[node].len() + self.endings[node].is_some() as usize;
        self.lengths().iter().enumerate().any(|(node, length)| length.is_some() && ways(node) > 1)
    }

    /// Of the ways that are left from the start those with the fewest pairs, and of them the one with the smallest bytes.
    pub fn shortest(mut self) -> Option<Vec<Pair>> {
        self.cull_pairs();
        let (mut node, mut candidate) = (0, Vec::new());
        while self.endings[node].is_none() {
            let edge = self.edges[node].first()?;
            candidate.push(edge.pair);
            node = edge.to;
        }
        Some(candidate)
    }
}

/// One state for each machine, by their number.
fn states(card: &Card, number: usize) -> Vec<usize> {
    let counts = card.machines.iter().map(|machine| machine.endings.len());
    let apart = counts.scan(number, |rest, count| {
        let state = *rest % count;
        *rest /= count;
        Some(state)
    });
    apart.collect()
}

/// The number of the states that a pair leads to, and its marks, if every machine takes it.
fn step(card: &Card, states: &[usize], pair: Pair) -> Option<(usize, Profile)> {
    let (mut number, mut scale, mut marks) = (0, 1, [0; 6]);
    for (place, (machine, &state)) in card.machines.iter().zip(states).enumerate() {
        let (next, cost) = machine.step(state, pair.0, pair.1)?;
        number += scale * next;
        scale *= machine.endings.len();
        marks[place] = cost;
    }
    Some((number, marks))
}

/// The ending marks, if every machine may end.
fn ending(card: &Card, states: &[usize]) -> Option<Profile> {
    let mut marks = [0; 6];
    for (place, (machine, &state)) in card.machines.iter().zip(states).enumerate() {
        marks[place] = machine.endings[state]?;
    }
    Some(marks)
}

/// The best candidate for a word on an accepted card.
pub fn best_by_culling(card: &Card, ranking: &[u8], word: &[u8]) -> Option<Vec<Pair>> {
    culled(Graph::new(card, word), ranking)
}

/// The best candidate over the words with one of the symbols of each position.
pub fn best_of_positions_by_culling(card: &Card, ranking: &[u8], positions: &[Vec<u8>]) -> Option<Vec<Pair>> {
    culled(Graph::of_positions(card, positions), ranking)
}

fn culled(mut graph: Graph, ranking: &[u8]) -> Option<Vec<Pair>> {
    for &machine in ranking {
        graph.cull(machine as usize);
    }
    graph.shortest()
}

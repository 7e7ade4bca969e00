//! The peer of `bench/walks`: Dijkstra's search over arrays of edges, and for the first k walks the same
//! with a heap of walks of which k are settled at each node, until k are at the target. Walks are ordered
//! by cost, then by the number of edges, then by the edges.
//!
//!     peer_walks FILE load | all COSTS FROM | first COSTS FROM TO K, where COSTS is unit or weight
mod peer_graph;

use peer_graph::{Graph, Sides, marked, read};
use std::cmp::{Ordering, Reverse};
use std::collections::BinaryHeap;
use std::rc::Rc;

struct Link {
    edge: usize,
    before: Option<Rc<Link>>,
}

#[derive(Clone)]
struct Walk {
    cost: u64,
    length: u64,
    at: usize,
    last: Option<Rc<Link>>,
}

impl Walk {
    fn edges(&self) -> Vec<usize> {
        let (mut edges, mut left) = (Vec::new(), &self.last);
        while let Some(link) = left {
            edges.push(link.edge);
            left = &link.before;
        }
        edges.reverse();
        edges
    }

    fn extended(&self, edge: usize, at: usize, cost: u64) -> Walk {
        let last = Some(Rc::new(Link { edge, before: self.last.clone() }));
        Walk { cost: self.cost + cost, length: self.length + 1, at, last }
    }
}

// Of two walks with one number of edges the first edges that differ decide: the last that are met on the
// way back to what both share.
fn by_edges(a: &Option<Rc<Link>>, b: &Option<Rc<Link>>) -> Ordering {
    let (mut a, mut b, mut told) = (a, b, Ordering::Equal);
    while let (Some(one), Some(other)) = (a, b) {
        if Rc::ptr_eq(one, other) {
            break;
        }
        told = one.edge.cmp(&other.edge).then(told);
        (a, b) = (&one.before, &other.before);
    }
    told
}

impl Ord for Walk {
    fn cmp(&self, other: &Walk) -> Ordering {
        let order = (self.cost, self.length).cmp(&(other.cost, other.length));
        order.then_with(|| by_edges(&self.last, &other.last))
    }
}

impl PartialOrd for Walk {
    fn partial_cmp(&self, other: &Walk) -> Option<Ordering> {
        Some(self.cmp(other))
    }
}

impl PartialEq for Walk {
    fn eq(&self, other: &Walk) -> bool {
        self.cmp(other).is_eq()
    }
}

impl Eq for Walk {}

struct Search<'a> {
    graph: &'a Graph,
    out: Sides,
    cost: fn(u64) -> u64,
}

impl Search<'_> {
    // The first walk to each node.
    fn all(&self, from: usize) -> Vec<Walk> {
        let mut best: Vec<Option<Walk>> = vec![None; self.graph.count];
        let mut settled = vec![false; self.graph.count];
        let mut heap = BinaryHeap::new();
        best[from] = Some(Walk { cost: 0, length: 0, at: from, last: None });
        heap.push(Reverse((0, 0, from)));
        while let Some(Reverse((_, _, node))) = heap.pop() {
            if std::mem::replace(&mut settled[node], true) {
                continue;
            }
            let walk = best[node].clone().unwrap();
            for i in self.out.of(node) {
                let edge = &self.graph.edges[*i];
                if settled[edge.to] {
                    continue;
                }
                let next = walk.extended(*i, edge.to, (self.cost)(edge.weight));
                if best[edge.to].as_ref().is_none_or(|known| next < *known) {
                    heap.push(Reverse((next.cost, next.length, edge.to)));
                    best[edge.to] = Some(next);
                }
            }
        }
        best.into_iter().flatten().collect()
    }

    // The first k walks to a node.
    fn first(&self, from: usize, to: usize, k: usize) -> Vec<Walk> {
        let mut counts = vec![0; self.graph.count];
        let mut found = Vec::new();
        let mut heap = BinaryHeap::new();
        heap.push(Reverse(Walk { cost: 0, length: 0, at: from, last: None }));
        while let Some(Reverse(walk)) = heap.pop() {
            if counts[walk.at] == k {
                continue;
            }
            counts[walk.at] += 1;
            if walk.at == to {
                found.push(walk.clone());
                if found.len() == k {
                    break;
                }
            }
            for i in self.out.of(walk.at) {
                let edge = &self.graph.edges[*i];
                heap.push(Reverse(walk.extended(*i, edge.to, (self.cost)(edge.weight))));
            }
        }
        found
    }
}

fn print(graph: &Graph, from: usize, walks: &[Walk]) {
    let mut lists: Vec<(usize, Vec<usize>, u64)> = walks.iter().map(|walk| (walk.length as usize, walk.edges(), walk.cost)).collect();
    lists.sort();
    lists.dedup();
    let (mut nodes, mut edges) = (vec![false; graph.count], vec![false; graph.edges.len()]);
    let mut paths = Vec::new();
    for (number, (_, list, cost)) in lists.iter().enumerate() {
        nodes[from] = true;
        let mut walk = from.to_string();
        for i in list {
            nodes[graph.edges[*i].to] = true;
            edges[*i] = true;
            walk += &format!(",{},{}", graph.count + i, graph.edges[*i].to);
        }
        let id = graph.count + graph.edges.len() + number;
        paths.push(format!("{{\"id\":{id},\"labels\":[],\"properties\":{{\"cost\":[{cost}]}},\"walk\":[{walk}]}}"));
    }
    let edges: Vec<String> = marked(&edges).into_iter().map(|i| graph.edge_text(i)).collect();
    graph.print(&marked(&nodes), &edges, &paths);
}

fn main() {
    let words: Vec<String> = std::env::args().collect();
    let graph = read(&words[1]);
    if words[2] == "load" {
        return graph.print(&[0], &[], &[]);
    }
    let numbers: Vec<usize> = words[4..].iter().map(|word| word.parse().unwrap()).collect();
    let cost = if words[3] == "unit" { |_| 1 } else { |weight| weight };
    let search = Search { graph: &graph, out: graph.sides(|e| e.from), cost };
    let walks = match words[2].as_str() {
        "all" => search.all(numbers[0]),
        _ => search.first(numbers[0], numbers[1], numbers[2]),
    };
    print(&graph, numbers[0], &walks);
}

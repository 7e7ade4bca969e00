//! The peer of `bench/reach`: plain breadth-first searches over arrays of edges.
//!
//!     peer_reach FILE load | one FROM.. | three FROM.. | pairs | on FROM TO
mod peer_graph;

use peer_graph::{Graph, marked, read};

// The pairs of a node and a state that are reached from a node and the first state.
fn reached(count: usize, states: usize, from: usize, each: impl Fn(usize, usize, &mut dyn FnMut(usize, usize))) -> Vec<bool> {
    let mut seen = vec![false; count * states];
    let mut queue = vec![from * states];
    seen[from * states] = true;
    let mut i = 0;
    while i < queue.len() {
        let (node, state) = (queue[i] / states, queue[i] % states);
        each(node, state, &mut |next, to| {
            let pair = next * states + to;
            if !seen[pair] {
                seen[pair] = true;
                queue.push(pair);
            }
        });
        i += 1;
    }
    seen
}

// Over (:a :b- | :c)*: in state 1 an edge b is due, against its direction.
fn over_three(graph: &Graph, sources: &[usize]) {
    let (out, back) = (graph.sides(|e| e.from), graph.sides(|e| e.to));
    for from in sources {
        let seen = reached(graph.count, 2, *from, |node, state, go| {
            for i in if state == 0 { out.of(node) } else { back.of(node) } {
                let edge = &graph.edges[*i];
                match (state, edge.letter) {
                    (0, 'a') => go(edge.to, 1),
                    (0, 'c') => go(edge.to, 0),
                    (1, 'b') => go(edge.from, 0),
                    _ => {}
                }
            }
        });
        let nodes: Vec<usize> = (0..graph.count).filter(|n| seen[2 * n]).collect();
        graph.print(&nodes, &[], &[]);
    }
}

fn main() {
    let words: Vec<String> = std::env::args().collect();
    let graph = read(&words[1]);
    let nodes: Vec<usize> = words[3..].iter().map(|word| word.parse().unwrap()).collect();
    if words[2] == "load" {
        return graph.print(&[0], &[], &[]);
    }
    if words[2] == "three" {
        return over_three(&graph, &nodes);
    }
    let out = graph.sides(|e| e.from);
    let from = |node| reached(graph.count, 1, node, |at, _, go| out.of(at).iter().for_each(|i| go(graph.edges[*i].to, 0)));
    match words[2].as_str() {
        "one" => nodes.iter().for_each(|node| graph.print(&marked(&from(*node)), &[], &[])),
        "pairs" => {
            let mut edges = Vec::new();
            for node in 0..graph.count {
                for to in marked(&from(node)) {
                    let id = graph.count + graph.edges.len() + edges.len();
                    edges.push(format!("{{\"from\":{node},\"id\":{id},\"labels\":[\"reaches\"],\"properties\":{{}},\"to\":{to}}}"));
                }
            }
            graph.print(&(0..graph.count).collect::<Vec<usize>>(), &edges, &[]);
        }
        _ => {
            let into = graph.sides(|e| e.to);
            let ahead = from(nodes[0]);
            let behind = reached(graph.count, 1, nodes[1], |at, _, go| into.of(at).iter().for_each(|i| go(graph.edges[*i].from, 0)));
            let on: Vec<usize> = (0..graph.count).filter(|n| ahead[*n] && behind[*n]).collect();
            let along = (0..graph.edges.len()).filter(|i| ahead[graph.edges[*i].from] && behind[graph.edges[*i].to]);
            graph.print(&on, &along.map(|i| graph.edge_text(i)).collect::<Vec<String>>(), &[]);
        }
    }
}

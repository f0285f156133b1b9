// Times the proved solve call beside two plain Rust versions of the same method, over the same plans in one run. One, as the proved
// call does, finds the edges of a node anew whenever it tries them. The other finds all edges once and keeps them.
mod graph;
mod plain;
use graph::{choices, discover, gcd, leads, outcomes, proved_certificate, read_plan, timed, Choice, Graph, Plan, LARGEST};
use std::borrow::Cow;
use std::hint::black_box;

// The best edge of a label to a node.
#[derive(Clone, Copy)]
struct Edge {
    label: u8,
    to: usize,
    kept: u32,
    ideal: u32,
}

// How a node was reached: its distance, from where and by which edge, and whether its own edges are still to be tried.
#[derive(Clone, Copy)]
struct Link {
    distance: i64,
    parent: usize,
    edge: Edge,
    waits: bool,
}

fn best_edges(plan: &Plan, graph: &Graph, u: usize) -> Vec<Edge> {
    let node = &graph.nodes[u];
    let mut edges = vec![];
    for (label, mut to, kept) in leads(plan, node) {
        outcomes::<true>(plan, label, node.taken, &mut |pattern, ideal| {
            to.taken = pattern;
            edges.push(Edge { label, to: graph.numbers[&to], kept: kept as u32, ideal });
        });
    }
    edges
}

// The edges from v down to u and then by the last one back to v, if v is above u.
fn cycle(links: &[Option<Link>], u: usize, last: Edge, v: usize) -> Option<Vec<(usize, Edge)>> {
    let mut steps = vec![(u, last)];
    let mut at = u;
    while at != v {
        if at == 0 {
            return None;
        }
        let link = links[at].unwrap();
        steps.push((link.parent, link.edge));
        at = link.parent;
    }
    steps.reverse();
    Some(steps)
}

// The distances at p/q, by passes over the nodes that wait, and the number of passes; or a cycle that costs less than 0.
fn settle<'a>(n: usize, p: u32, q: u32, edges: &impl Fn(usize) -> Cow<'a, [Edge]>) -> Result<(Vec<i64>, u64), Vec<(usize, Edge)>> {
    let none = Edge { label: 0, to: 0, kept: 0, ideal: 0 };
    let mut links: Vec<Option<Link>> = vec![None; n];
    links[0] = Some(Link { distance: 0, parent: 0, edge: none, waits: true });
    let (mut moved, mut passes) = (true, 0);
    while moved {
        (moved, passes) = (false, passes + 1);
        for u in 0..n {
            let Some(Link { distance: before, waits: true, .. }) = links[u] else { continue };
            for &edge in edges(u).iter() {
                let distance = before + q as i64 * edge.kept as i64 - p as i64 * edge.ideal as i64;
                if links[edge.to].is_some_and(|l| l.distance <= distance) {
                    continue;
                }
                if let Some(steps) = cycle(&links, u, edge, edge.to) {
                    return Err(steps);
                }
                links[edge.to] = Some(Link { distance, parent: u, edge, waits: true });
                moved = true;
            }
            links[u].as_mut().unwrap().waits = false;
        }
    }
    Ok((links.iter().map(|l| l.unwrap().distance).collect(), passes))
}

// The first masks of the edge's label that leave its node's pattern with its gain.
fn masks(plan: &Plan, graph: &Graph, from: usize, edge: &Edge) -> [u16; 4] {
    let mut found = None;
    choices(plan, edge.label, 0, Choice { gain: 0, taken: graph.nodes[from].taken, masks: [0; 4] }, &mut |c| {
        if found.is_none() && c.taken >> 1 == graph.nodes[edge.to].taken && c.gain == edge.ideal {
            found = Some(c.masks);
        }
    });
    found.unwrap()
}

// From 1/0 down: each cycle that costs less than 0 gives the next fraction. The certificate's bytes with the passes for its fraction, and the
// number of fractions.
fn solve<const KEEP: bool>(plan: &[u8]) -> ((Vec<u8>, u64), usize) {
    let plan = read_plan(plan);
    let graph = discover::<true>(&plan).unwrap();
    let n = graph.nodes.len();
    let kept: Vec<_> = if KEEP { (0..n).map(|u| best_edges(&plan, &graph, u)).collect() } else { vec![] };
    let edges = |u: usize| if KEEP { Cow::Borrowed(&kept[u][..]) } else { Cow::Owned(best_edges(&plan, &graph, u)) };
    let (mut p, mut q, mut steps, mut fractions) = (1, 0, vec![], 1);
    let (distances, passes) = loop {
        match settle(n, p, q, &edges) {
            Ok(settled) => break settled,
            Err(found) => {
                let kept = found.iter().map(|(_, e)| e.kept).sum();
                let ideal = found.iter().map(|(_, e)| e.ideal).sum();
                let d = gcd(kept, ideal);
                (p, q, steps, fractions) = (kept / d, ideal / d, found, fractions + 1);
            }
        }
    };
    let mut out = vec![0x11];
    out.extend(p.to_be_bytes());
    out.extend(q.to_be_bytes());
    out.extend((n as u16).to_be_bytes());
    for z in distances {
        out.push(0x12);
        out.extend(z.to_be_bytes());
    }
    if let Some((first, _)) = steps.first() {
        out.push(0x13);
        out.extend((*first as u16).to_be_bytes());
    }
    for (u, edge) in &steps {
        out.extend([0x14, edge.label]);
        out.extend(masks(&plan, &graph, *u, edge).map(u16::to_be_bytes).concat());
    }
    out.push(0x15);
    ((out, passes), fractions)
}

fn main() {
    let large = [1, 1, 8, 0, 5, 1, 2, 8, 0, 7, 1, 2, 8, 0, 11, 1, 2, 8, 0, 13, 2, 4, 3, 1, 4, 0, 15, 0, 5];
    let falling = [
        1, 1, 4, 0, 215, 1, 3, 5, 0, 231, 2, 4, 3, 2, 4, 0, 0, 1, 4, 0, 1, 0, 4, 0, 2, 0, 4, 0, 3, 0, 4, 1, 0, 0, 4, 1, 1, 0, 4, 1, 2, 1,
        4, 1, 3, 1, 5,
    ];
    let mut work = vec![0; 65536];
    for plan in [&large[..], &falling[..], &LARGEST[..]] {
        let (solved, fractions) = solve::<true>(plan);
        let (certificate, passes) = &solved;
        let [p, q] = [1, 5].map(|at| u32::from_be_bytes(certificate[at..at + 4].try_into().unwrap()));
        let n = u16::from_be_bytes([certificate[9], certificate[10]]);
        println!("{n} nodes, p/q {p}/{q}, the last of {fractions} fractions, after {passes} passes");
        let (mut ours, mut anew, mut kept) = (f64::MAX, f64::MAX, f64::MAX);
        for _ in 0..10 {
            assert!(timed(&mut ours, || proved_certificate(black_box(plan), &mut work)) == solved);
            assert!(timed(&mut anew, || solve::<false>(black_box(plan))).0 == solved);
            assert!(timed(&mut kept, || solve::<true>(black_box(plan))).0 == solved);
        }
        println!("solve: proved {ours:.1} ms, plain Rust {anew:.1} ms, ratio {:.2}", ours / anew);
        println!("solve: proved {ours:.1} ms, plain Rust with the edges kept {kept:.1} ms, ratio {:.2}", ours / kept);
    }
}

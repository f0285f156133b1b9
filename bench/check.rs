// Times the proved check call beside two plain Rust versions of the same check, over the same input in one run. One looks up the
// node of every edge. The other, as the proved call does, looks up one node for each pattern that a label's choices leave.
mod graph;
mod plain;
use graph::{discover, gcd, leads, outcomes, proved_certificate, read_plan, timed, Graph, Plan, LARGEST};
use plain::slot;
use std::hint::black_box;

extern "C" {
    fn jovnetal_check(
        plan: *const u8,
        plan_len: usize,
        certificate: *const u8,
        certificate_len: usize,
        work: *mut u8,
        work_len: usize,
        numbers: *mut [u64; 4],
    ) -> u64;
}

// p, q, N and K, or the number of the refusal.
type Answer = Result<[u64; 4], u64>;

// ---- the certificate

struct Certificate {
    p: u32,
    q: u32,
    potentials: Vec<i64>,
    node: usize,
    steps: Vec<(u8, [u16; 4])>,
}

// The operands of a command, which is taken off the bytes.
fn command<const N: usize>(bytes: &mut &[u8], code: u8) -> Option<[u8; N]> {
    let (&first, rest) = bytes.split_first()?;
    let (operands, rest) = rest.split_first_chunk()?;
    *bytes = rest;
    (first == code).then_some(*operands)
}

fn read_certificate(mut bytes: &[u8]) -> Option<Certificate> {
    let [p0, p1, p2, p3, q0, q1, q2, q3, n0, n1] = command(&mut bytes, 0x11)?;
    let p = u32::from_be_bytes([p0, p1, p2, p3]);
    let q = u32::from_be_bytes([q0, q1, q2, q3]);
    let n = u16::from_be_bytes([n0, n1]) as usize;
    if !(1..=1024).contains(&n) {
        return None;
    }
    let mut potentials = Vec::with_capacity(n);
    for _ in 0..n {
        potentials.push(i64::from_be_bytes(command(&mut bytes, 0x12)?));
    }
    let mut node = 0;
    let mut steps = vec![];
    if q > 0 {
        node = u16::from_be_bytes(command(&mut bytes, 0x13)?) as usize;
        while bytes.first() == Some(&0x14) {
            let [label, a1, a0, b1, b0, c1, c0, d1, d0] = command(&mut bytes, 0x14)?;
            steps.push((label, [[a1, a0], [b1, b0], [c1, c0], [d1, d0]].map(u16::from_be_bytes)));
        }
        if !(1..=1024).contains(&steps.len()) {
            return None;
        }
    }
    (bytes == [0x15]).then_some(Certificate { p, q, potentials, node, steps })
}

// ---- the check

fn fraction_ok(p: u32, q: u32) -> bool {
    (p, q) == (1, 0) || gcd(p, q) == 1 && p <= 67_107_840 && (1..=268_431_360).contains(&q)
}

fn potentials_ok<const BEST: bool>(plan: &Plan, graph: &Graph, c: &Certificate) -> bool {
    if c.potentials.iter().any(|z| z.unsigned_abs() > 1 << 56) {
        return false;
    }
    let mut ok = true;
    for (u, node) in graph.nodes.iter().enumerate() {
        for (label, mut to, kept) in leads(plan, node) {
            let high = c.potentials[u] + c.q as i64 * kept as i64;
            outcomes::<BEST>(plan, label, node.taken, &mut |pattern, ideal| {
                to.taken = pattern;
                ok &= high - c.p as i64 * ideal as i64 >= c.potentials[graph.numbers[&to]];
            });
            if !ok {
                return false;
            }
        }
    }
    true
}

fn cycle_ok(plan: &Plan, graph: &Graph, c: &Certificate) -> bool {
    if c.q == 0 {
        return true;
    }
    let Some(start) = graph.nodes.get(c.node) else { return false };
    let mut at = start.clone();
    let (mut kept, mut ideal) = (0, 0);
    for &(label, masks) in &c.steps {
        let Some(&Some(state)) = plan.next[at.state as usize].get(label as usize) else { return false };
        for (i, &m) in masks.iter().enumerate().filter(|(_, m)| **m != 0) {
            if label >> i & 1 == 0 || m & at.taken != 0 || !plan.masks[i].contains(&m) {
                return false;
            }
            at.taken |= m;
            ideal += plan.tasks[i].value as u64;
        }
        at.taken >>= 1;
        at.state = state;
        kept += slot(&plan.tasks, plan.policy, &mut at.jobs, label).1 as u64;
    }
    at == *start && ideal > 0 && c.p as u64 * ideal == c.q as u64 * kept
}

fn check<const BEST: bool>(plan: &[u8], certificate: &[u8]) -> Answer {
    let plan = read_plan(plan);
    let graph = discover::<BEST>(&plan).ok_or(5u64)?;
    let c = read_certificate(certificate).ok_or(6u64)?;
    let n = c.potentials.len();
    if !fraction_ok(c.p, c.q) {
        return Err(7);
    }
    if n != graph.nodes.len() {
        return Err(8);
    }
    if !potentials_ok::<BEST>(&plan, &graph, &c) {
        return Err(9);
    }
    if !cycle_ok(&plan, &graph, &c) {
        return Err(10);
    }
    let k = c.potentials[0] - c.potentials.iter().min().unwrap();
    Ok([c.p as u64, c.q as u64, n as u64, k as u64])
}

// ---- the times

fn proved(plan: &[u8], certificate: &[u8], work: &mut [u8]) -> Answer {
    let mut numbers = [0; 4];
    let code = unsafe {
        jovnetal_check(
            plan.as_ptr(),
            plan.len(),
            certificate.as_ptr(),
            certificate.len(),
            work.as_mut_ptr(),
            work.len(),
            &mut numbers,
        )
    };
    if code == 0 { Ok(numbers) } else { Err(code) }
}

fn main() {
    let large = [1, 1, 8, 0, 5, 1, 2, 8, 0, 7, 1, 2, 8, 0, 11, 1, 2, 8, 0, 13, 2, 4, 3, 1, 4, 0, 15, 0, 5];
    let locked = [&large[..20], &[9, 2, 9, 3, 9, 4], &large[20..]].concat();
    let mut work = vec![0; 65536];
    for (plan, size) in [(&large[..], (897, 583_571)), (&locked[..], (856, 52_557)), (&LARGEST[..], (1024, 1_939_509))] {
        let sound = read_plan(plan);
        let mut count = 0;
        for node in &discover::<false>(&sound).unwrap().nodes {
            for (label, _, _) in leads(&sound, node) {
                outcomes::<false>(&sound, label, node.taken, &mut |_, _| count += 1);
            }
        }
        let (certificate, _) = proved_certificate(plan, &mut work);
        let [p, q, n, k] = proved(plan, &certificate, &mut work).unwrap();
        assert_eq!((n, count), size);
        println!("{n} nodes, {count} edges, p/q {p}/{q}, K {k}");
        for (what, bytes, answer) in [("discovery", &[][..], Err(6)), ("check", &certificate, Ok([p, q, n, k]))] {
            let (mut ours, mut every, mut best) = (f64::MAX, f64::MAX, f64::MAX);
            for _ in 0..10 {
                assert_eq!(timed(&mut ours, || proved(black_box(plan), black_box(bytes), &mut work)), answer);
                assert_eq!(timed(&mut every, || check::<false>(black_box(plan), black_box(bytes))), answer);
                assert_eq!(timed(&mut best, || check::<true>(black_box(plan), black_box(bytes))), answer);
            }
            println!("{what}: proved {ours:.1} ms, plain Rust {every:.1} ms, ratio {:.2}", ours / every);
            println!("{what}: proved {ours:.1} ms, plain Rust with the best of each pattern {best:.1} ms, ratio {:.2}", ours / best);
        }
    }
}

// Times the proved combine call beside a plain Rust version, over the same plans in one run: the best of many rounds of each.
use std::collections::HashMap;
use std::hint::black_box;
use std::time::Instant;

extern "C" {
    fn jovnetal_combine(first: *const u8, first_len: usize, second: *const u8, second_len: usize, out: *mut u8, out_len: usize) -> u64;
}

struct Plan {
    tasks: Vec<[u8; 4]>,
    policy: u8,
    next: Vec<[Option<u8>; 16]>,
}

// The plan of sound bytes.
fn read(bytes: &[u8]) -> Option<Plan> {
    let mut plan = Plan { tasks: Vec::new(), policy: 0, next: Vec::new() };
    let mut at = 0;
    loop {
        match *bytes.get(at)? {
            1 => {
                let t: [u8; 4] = bytes.get(at + 1..at + 5)?.try_into().ok()?;
                if t[0] < 1 || t[1] < t[0] || 10 < t[1] || t[2..] == [0, 0] {
                    return None;
                }
                plan.tasks.push(t);
                at += 5;
            }
            2 => {
                plan.policy = *bytes.get(at + 1)?;
                at += 2;
            }
            3 => {
                plan.next = vec![[None; 16]; *bytes.get(at + 1)? as usize];
                at += 2;
            }
            4 => {
                let a = bytes.get(at + 1..at + 4)?;
                if plan.next.len() <= a[2] as usize || 1 << plan.tasks.len() <= a[1] {
                    return None;
                }
                plan.next.get_mut(a[0] as usize)?[a[1] as usize] = Some(a[2]);
                at += 4;
            }
            5 => return Some(plan),
            _ => return None,
        }
    }
}

fn combined(first: &[u8], second: &[u8]) -> Option<Vec<u8>> {
    let (p, q) = (read(first)?, read(second)?);
    if p.tasks != q.tasks {
        return None;
    }
    let mut pairs = vec![(0u8, 0u8)];
    let mut numbers = HashMap::from([((0u8, 0u8), 0u8)]);
    let mut arcs = Vec::new();
    let mut k = 0;
    while k < pairs.len() {
        let (s, t) = pairs[k];
        for l in 0..1 << p.tasks.len() {
            let (Some(a), Some(b)) = (p.next[s as usize][l], q.next[t as usize][l]) else { continue };
            let to = *numbers.entry((a, b)).or_insert_with(|| {
                pairs.push((a, b));
                pairs.len() as u8 - 1
            });
            if 16 < pairs.len() {
                return None;
            }
            arcs.extend([4, k as u8, l as u8, to]);
        }
        k += 1;
    }
    let mut out = Vec::new();
    for task in &p.tasks {
        out.push(1);
        out.extend(task);
    }
    out.extend([2, p.policy, 3, pairs.len() as u8]);
    out.extend(arcs);
    out.push(5);
    Some(out)
}

// Four tasks, and in each of so many states every label leads to the next state.
fn ring(policy: u8, states: u8) -> Vec<u8> {
    let mut plan = vec![1, 2, 8, 0, 5, 1, 3, 8, 0, 7, 1, 1, 8, 0, 11, 1, 4, 8, 0, 13, 2, policy, 3, states];
    for s in 0..states {
        for l in 0..16 {
            plan.extend([4, s, l, (s + 1) % states]);
        }
    }
    plan.push(5);
    plan
}

fn timed<T>(best: &mut f64, run: impl FnOnce() -> T) -> T {
    let start = Instant::now();
    let result = run();
    *best = best.min(start.elapsed().as_nanos() as f64 / 1000.0);
    result
}

fn main() {
    for (a, b) in [(16, 16), (16, 1), (5, 3), (1, 1)] {
        let (first, second) = (ring(1, a), ring(2, b));
        let mut out = vec![0u8; 1057];
        let (mut ours, mut theirs) = (f64::MAX, f64::MAX);
        for _ in 0..2000 {
            let (x, y) = (black_box(&first), black_box(&second));
            let n = timed(&mut ours, || unsafe { jovnetal_combine(x.as_ptr(), x.len(), y.as_ptr(), y.len(), out.as_mut_ptr(), out.len()) });
            let plain = timed(&mut theirs, || combined(x, y));
            assert_eq!(Some(&out[..n as usize]), plain.as_deref());
        }
        println!("rings of {a} and {b}: proved {ours:.1} µs, plain Rust {theirs:.1} µs, ratio {:.2}", ours / theirs);
    }
}

// Times the proved forth and back calls beside a plain Rust version, over the same plans in one run: the best of many rounds of each.
use std::hint::black_box;
use std::time::Instant;

extern "C" {
    fn jovnetal_forth(plan: *const u8, plan_len: usize, out: *mut u8, out_len: usize) -> u64;
    fn jovnetal_back(plan: *const u8, plan_len: usize, out: *mut u8, out_len: usize) -> u64;
}

// The longest window, the largest value, and its bytes.
#[derive(Clone, Copy)]
struct Edition {
    window: u8,
    value: u16,
    width: usize,
}

const FIRST: Edition = Edition { window: 8, value: 255, width: 1 };
const LONG: Edition = Edition { window: 10, value: 65535, width: 2 };

struct Plan {
    tasks: Vec<(u8, u8, u16)>,
    policy: u8,
    states: u8,
    arcs: Vec<[u8; 3]>,
}

// The plan of an edition's bytes, where they have no fault.
fn read(e: Edition, bytes: &[u8]) -> Option<Plan> {
    let mut plan = Plan { tasks: Vec::new(), policy: 0, states: 0, arcs: Vec::new() };
    let mut at = 0;
    loop {
        match *bytes.get(at)? {
            1 => {
                let t = bytes.get(at + 1..at + 3 + e.width)?;
                let v = t[2..].iter().fold(0u16, |n, &b| n << 8 | b as u16);
                if plan.policy != 0 || plan.tasks.len() == 4 || t[0] < 1 || t[1] < t[0] || e.window < t[1] || v < 1 || e.value < v {
                    return None;
                }
                plan.tasks.push((t[0], t[1], v));
                at += 3 + e.width;
            }
            2 => {
                plan.policy = *bytes.get(at + 1).filter(|&p| (1..=4).contains(p) && plan.policy == 0 && !plan.tasks.is_empty())?;
                at += 2;
            }
            3 => {
                plan.states = *bytes.get(at + 1).filter(|&m| (1..=16).contains(m) && plan.states == 0 && plan.policy != 0)?;
                at += 2;
            }
            4 => {
                let a: [u8; 3] = bytes.get(at + 1..at + 4)?.try_into().ok()?;
                let rises = plan.arcs.last().map_or(true, |b| b[..2] < a[..2]);
                if plan.states <= a[0] || 1 << plan.tasks.len() <= a[1] || plan.states <= a[2] || !rises {
                    return None;
                }
                plan.arcs.push(a);
                at += 4;
            }
            5 => return (plan.states != 0 && at + 1 == bytes.len()).then_some(plan),
            _ => return None,
        }
    }
}

fn converted(from: Edition, to: Edition, bytes: &[u8]) -> Option<Vec<u8>> {
    let plan = read(from, bytes)?;
    let mut out = Vec::new();
    for &(c, d, v) in &plan.tasks {
        if to.window < d || to.value < v {
            return None;
        }
        out.extend([1, c, d]);
        out.extend(&v.to_be_bytes()[2 - to.width..]);
    }
    out.extend([2, plan.policy, 3, plan.states]);
    for a in &plan.arcs {
        out.push(4);
        out.extend(a);
    }
    out.push(5);
    Some(out)
}

// Four tasks in the first edition, and in each of so many states every label leads to the next state.
fn ring(states: u8) -> Vec<u8> {
    let mut plan = vec![1, 2, 8, 5, 1, 3, 8, 7, 1, 1, 8, 11, 1, 4, 8, 13, 2, 1, 3, states];
    for s in 0..states {
        for l in 0..16 {
            plan.extend([4, s, l, (s + 1) % states]);
        }
    }
    plan.push(5);
    plan
}

fn timed<T>(best: &mut f64, run: impl FnOnce() -> T) -> T {
    let start = Instant::now();
    let result = run();
    *best = best.min(start.elapsed().as_nanos() as f64 / 1000.0);
    result
}

fn main() {
    type Call = unsafe extern "C" fn(*const u8, usize, *mut u8, usize) -> u64;
    for states in [16, 5, 1] {
        let old = ring(states);
        let new = converted(FIRST, LONG, &old).unwrap();
        for (name, call, from, to, plan) in [("forth", jovnetal_forth as Call, FIRST, LONG, &old), ("back", jovnetal_back as Call, LONG, FIRST, &new)] {
            let mut out = vec![0u8; 1057];
            let (mut ours, mut theirs) = (f64::MAX, f64::MAX);
            for _ in 0..2000 {
                let x = black_box(plan);
                let n = timed(&mut ours, || unsafe { call(x.as_ptr(), x.len(), out.as_mut_ptr(), out.len()) });
                let plain = timed(&mut theirs, || converted(from, to, x));
                assert_eq!(Some(&out[..n as usize]), plain.as_deref());
            }
            println!("{name}, {states} states: proved {ours:.2} µs, plain Rust {theirs:.2} µs, ratio {:.2}", ours / theirs);
        }
    }
}

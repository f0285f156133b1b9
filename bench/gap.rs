// Times the proved gap call for a set of tasks beside a plain Rust version, over the same plans in one run: the best of many rounds of each.
use std::hint::black_box;
use std::time::Instant;

extern "C" {
    fn jovnetal_group_gap(plan: *const u8, plan_len: usize, set: u64, slots: u64, out: *mut u8, out_len: usize) -> u64;
}

// The number of tasks of a plan without locks, and of the bytes that they and the policy have; the rest is read for its faults alone.
fn read(bytes: &[u8]) -> Option<(usize, usize)> {
    let (mut tasks, mut policy, mut states, mut last, mut at) = (0, 0, 0, None, 0);
    loop {
        match *bytes.get(at)? {
            1 => {
                let t = bytes.get(at + 1..at + 5)?;
                if policy != 0 || tasks == 4 || t[0] < 1 || t[1] < t[0] || 10 < t[1] || t[2..] == [0, 0] {
                    return None;
                }
                tasks += 1;
                at += 5;
            }
            2 => {
                policy = *bytes.get(at + 1).filter(|&p| (1..=4).contains(p) && policy == 0 && 0 < tasks)?;
                at += 2;
            }
            3 => {
                states = *bytes.get(at + 1).filter(|&m| (1..=16).contains(m) && states == 0 && policy != 0)?;
                at += 2;
            }
            4 => {
                let a = bytes.get(at + 1..at + 4)?;
                if states <= a[0] || 1 << tasks <= a[1] || states <= a[2] || last >= Some([a[0], a[1]]) {
                    return None;
                }
                last = Some([a[0], a[1]]);
                at += 4;
            }
            5 => return (states != 0 && at + 1 == bytes.len()).then_some((tasks, 5 * tasks + 2)),
            _ => return None,
        }
    }
}

fn spaced(bytes: &[u8], set: u64, slots: u64) -> Option<Vec<u8>> {
    let (tasks, head) = read(bytes)?;
    if !(1..=16).contains(&slots) || set < 1 || 1 << tasks <= set {
        return None;
    }
    let mut out = bytes[..head].to_vec();
    out.extend([3, slots as u8]);
    for s in 0..slots as u8 {
        for l in 0..1u8 << tasks {
            match (l & set as u8).count_ones() {
                0 => out.extend([4, s, l, s.saturating_sub(1)]),
                1 if s == 0 => out.extend([4, s, l, slots as u8 - 1]),
                _ => {}
            }
        }
    }
    out.push(5);
    Some(out)
}

// So many tasks, and one state that admits every label.
fn open(tasks: u8) -> Vec<u8> {
    let mut plan = [1, 2, 8, 0, 5].repeat(tasks as usize);
    plan.extend([2, 1, 3, 1]);
    for l in 0..1 << tasks {
        plan.extend([4, 0, l, 0]);
    }
    plan.push(5);
    plan
}

fn timed<T>(best: &mut f64, run: impl FnOnce() -> T) -> T {
    let start = Instant::now();
    let result = run();
    *best = best.min(start.elapsed().as_nanos() as f64 / 1000.0);
    result
}

fn main() {
    for (tasks, set, slots) in [(4, 7, 16), (4, 1, 16), (3, 5, 4), (1, 1, 1)] {
        let plan = open(tasks);
        let mut out = vec![0u8; 1057];
        let (mut ours, mut theirs) = (f64::MAX, f64::MAX);
        for _ in 0..2000 {
            let x = black_box(&plan);
            let n = timed(&mut ours, || unsafe { jovnetal_group_gap(x.as_ptr(), x.len(), set, slots, out.as_mut_ptr(), out.len()) });
            let plain = timed(&mut theirs, || spaced(x, set, slots));
            assert_eq!(Some(&out[..n as usize]), plain.as_deref());
        }
        println!("gap of {slots} over set {set} of {tasks} tasks: proved {ours:.2} µs, plain Rust {theirs:.2} µs, ratio {:.2}", ours / theirs);
    }
}

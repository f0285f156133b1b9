// Times the proved trace call beside a plain Rust version of the same rule, over the same input in one run: the best of many
// rounds of each.
mod plain;
use plain::{slot, Task};
use std::time::Instant;

extern "C" {
    fn jovnetal_trace(plan: *const u8, plan_len: usize, labels: *const u8, label_count: usize, out: *mut u8, out_len: usize) -> u64;
}

fn plain_trace(tasks: &[Task], policy: u8, labels: &[u8], out: &mut [u8]) -> usize {
    let mut jobs = Vec::with_capacity(32);
    let mut before = None;
    for (i, &l) in labels.iter().enumerate() {
        let waits = before.and_then(|b| jobs.iter().position(|&j| j == b));
        let (ran, gain) = slot(tasks, policy, &mut jobs, l);
        let runs_on = ran.map(|(k, _)| k) == waits;
        let cut = before.filter(|_| waits.is_some() && !runs_on);
        before = ran.map(|(_, job)| job);
        out[4 * i] = before.map_or(0, |j| j.task as u8);
        out[4 * i + 1] = (gain >> 8) as u8;
        out[4 * i + 2] = gain as u8;
        out[4 * i + 3] = cut.map_or(0, |j| j.task as u8);
    }
    4 * labels.len()
}

// Keeps the best time a slot.
fn timed(best: &mut f64, slots: usize, run: impl FnOnce()) {
    let start = Instant::now();
    run();
    *best = best.min(start.elapsed().as_nanos() as f64 / slots as f64);
}

fn main() {
    for locked in [false, true] {
        for policy in 1..=4u8 {
            measure(locked, policy);
        }
    }
}

// Four tasks, of which the second and the last may be locked, all released in every slot.
fn measure(locked: bool, policy: u8) {
    let tasks = [(2, 8, 5), (3, 8, 7), (1, 8, 11), (4, 8, 13)].map(|(work, window, value)| Task { work, window, value, locked: locked && work > 2 });
    let labels = [15u8; 4096];
    let rounds = 500;
    let mut plan = Vec::new();
    for t in &tasks {
        plan.extend([1, t.work, t.window]);
        plan.extend(t.value.to_be_bytes());
    }
    for (i, _) in tasks.iter().enumerate().filter(|(_, t)| t.locked) {
        plan.extend([9, i as u8 + 1]);
    }
    plan.extend([2, policy, 3, 1, 4, 0, 15, 0, 5]);
    let mut a = vec![0u8; 16384];
    let mut b = vec![0u8; 16384];
    let (mut ours, mut theirs) = (f64::MAX, f64::MAX);
    let (mut proved, mut written) = (0, 0);
    for _ in 0..rounds {
        timed(&mut ours, labels.len(), || {
            proved = unsafe { jovnetal_trace(plan.as_ptr(), plan.len(), labels.as_ptr(), labels.len(), a.as_mut_ptr(), a.len()) };
        });
        timed(&mut theirs, labels.len(), || {
            written = plain_trace(std::hint::black_box(&tasks), policy, std::hint::black_box(&labels), &mut b);
        });
    }
    assert_eq!(proved as usize, written);
    assert_eq!(a, b);
    let with = if locked { ", two tasks locked" } else { "" };
    println!("policy {policy}{with}: proved {ours:.1} ns a slot, plain Rust {theirs:.1} ns, ratio {:.2}", ours / theirs);
}

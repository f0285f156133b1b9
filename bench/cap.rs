// Times the proved cap call beside a plain Rust version, over the same log of four million labels in one run: the best of many rounds of each.
// Both read the plan's tasks once; the plain version has the log's own labels to look back at.
use std::hint::black_box;
use std::time::Instant;

extern "C" {
    fn jovnetal_cap(plan: *const u8, plan_len: usize, labels: *const u8, label_count: usize, slots: u64, work: u64, slot: *mut u64) -> u64;
}

#[derive(Debug, PartialEq)]
enum Answer {
    Foreign,
    Over(usize),
    Kept,
}

// Of a plan that is sound: the work of each label of its tasks.
fn works(plan: &[u8]) -> Vec<u32> {
    let tasks: Vec<u32> = plan.chunks_exact(5).take_while(|t| t[0] == 1).map(|t| t[1] as u32).collect();
    (0..1 << tasks.len()).map(|l: u32| (0..tasks.len()).map(|i| (l >> i & 1) * tasks[i]).sum()).collect()
}

fn plain(plan: &[u8], labels: &[u8], slots: usize, work: u32) -> Answer {
    let works = works(plan);
    let mut sum = 0;
    for (t, &label) in labels.iter().enumerate() {
        let Some(released) = works.get(label as usize) else {
            return Answer::Foreign;
        };
        sum += released;
        if slots <= t {
            sum -= works[labels[t - slots] as usize];
        }
        if work < sum {
            return Answer::Over(t);
        }
    }
    Answer::Kept
}

fn proved(plan: &[u8], labels: &[u8], slots: usize, work: u32) -> Answer {
    let mut slot = 0;
    match unsafe { jovnetal_cap(plan.as_ptr(), plan.len(), labels.as_ptr(), labels.len(), slots as u64, work as u64, &mut slot) } {
        0 => Answer::Kept,
        1 => Answer::Over(slot as usize),
        n => {
            assert_eq!(n, 65536 + 13);
            Answer::Foreign
        }
    }
}

// Four tasks of one to four slots of work, and one state that admits every label.
fn plan() -> Vec<u8> {
    let mut plan: Vec<u8> = (1..=4).flat_map(|c| [1, c, 8, 0, 5]).collect();
    plan.extend([2, 1, 3, 1]);
    for l in 0..16 {
        plan.extend([4, 0, l, 0]);
    }
    plan.push(5);
    plan
}

fn timed<T>(best: &mut f64, run: impl FnOnce() -> T) -> T {
    let start = Instant::now();
    let result = run();
    *best = best.min(start.elapsed().as_nanos() as f64);
    result
}

fn main() {
    const LABELS: usize = 4_000_000;
    let plan = plan();
    let mut seed = 1u32;
    let mut labels: Vec<u8> = (0..LABELS)
        .map(|_| {
            seed = seed.wrapping_mul(1664525).wrapping_add(1013904223);
            (seed >> 28) as u8
        })
        .collect();
    labels[LABELS - 1] = 16;
    for (slots, work) in [(1, 10), (5, 50), (64, 640), (64, 480)] {
        let (mut ours, mut theirs) = (f64::MAX, f64::MAX);
        for _ in 0..20 {
            let log = black_box(&labels);
            let ours = timed(&mut ours, || proved(&plan, log, slots, work));
            let theirs = timed(&mut theirs, || plain(&plan, log, slots, work));
            assert_eq!(ours, theirs);
        }
        let each = match plain(&plan, &labels, slots, work) {
            Answer::Over(t) => t + 1,
            _ => LABELS,
        } as f64;
        println!(
            "cap of {work} in {slots} slots, {each} labels: proved {:.2} ns a label, plain Rust {:.2} ns, ratio {:.2}",
            ours / each,
            theirs / each,
            ours / theirs
        );
    }
}

// Times the proved call for the register block beside a plain Rust model of the part, over the same writes in one run: the best of many
// rounds of each. A slot is two writes, its label and the run.
mod plain;
use plain::{slot, Job, Task};
use std::time::Instant;

extern "C" {
    fn jovnetal_block(plan: *const u8, plan_len: usize, writes: *const u8, writes_len: usize, registers: *mut u8) -> u64;
}

// The part: its plan, and what writes change.
struct Part<'a> {
    tasks: &'a [Task],
    policy: u8,
    next: &'a [u8; 256],
    label: u8,
    status: u8,
    mask: u8,
    ran: u8,
    gain: u32,
    jobs: Vec<Job>,
    state: u8,
}

impl Part<'_> {
    fn write(&mut self, byte: u8, value: u8) -> u8 {
        match (byte, value) {
            (0, label) => self.label = label,
            (3, mask) => self.mask = mask,
            (1, 1) => self.run(),
            _ => return 17,
        }
        0
    }

    fn run(&mut self) {
        let label = std::mem::take(&mut self.label);
        let to = if label < 16 { self.next[16 * self.state as usize + label as usize] } else { 0 };
        (self.status, self.ran) = (2, 0);
        if to == 0 {
            return;
        }
        let (ran, gain) = slot(self.tasks, self.policy, &mut self.jobs, label);
        self.status = (gain > 0) as u8;
        self.ran = ran.map_or(0, |(_, job)| job.task as u8);
        self.gain = self.gain.wrapping_add(gain as u32);
        self.state = to - 1;
    }

    fn registers(&self) -> [u8; 16] {
        let [a, b, c, d] = self.gain.to_be_bytes();
        let irq = (self.status & self.mask != 0) as u8;
        [self.label, 0, self.status, self.mask, self.ran, irq, 0, 0, a, b, c, d, 0, 0, 0, 0]
    }
}

fn plain_block(tasks: &[Task], policy: u8, next: &[u8; 256], writes: &[u8]) -> ([u8; 16], u8) {
    let mut part = Part { tasks, policy, next, label: 0, status: 0, mask: 0, ran: 0, gain: 0, jobs: Vec::with_capacity(32), state: 0 };
    let mut refusal = 0;
    for write in writes.chunks_exact(2) {
        refusal = part.write(write[0], write[1]);
    }
    (part.registers(), refusal)
}

// Keeps the best time a slot.
fn timed(best: &mut f64, slots: usize, run: impl FnOnce()) {
    let start = Instant::now();
    run();
    *best = best.min(start.elapsed().as_nanos() as f64 / slots as f64);
}

// Four tasks, all released in every slot.
fn main() {
    let tasks = [(2, 8, 5), (3, 8, 7), (1, 8, 11), (4, 8, 13)].map(|(work, window, value)| Task { work, window, value, locked: false });
    let slots = 4096;
    let writes = [0, 15, 1, 1].repeat(slots);
    let mut next = [0; 256];
    next[15] = 1;
    for policy in 1..=4u8 {
        let mut plan = Vec::new();
        for t in &tasks {
            plan.extend([1, t.work, t.window]);
            plan.extend(t.value.to_be_bytes());
        }
        plan.extend([2, policy, 3, 1, 4, 0, 15, 0, 5]);
        let mut a = [0u8; 16];
        let (mut ours, mut theirs) = (f64::MAX, f64::MAX);
        let (mut proved, mut told) = (0, ([0u8; 16], 0));
        for _ in 0..500 {
            timed(&mut ours, slots, || {
                proved = unsafe { jovnetal_block(plan.as_ptr(), plan.len(), writes.as_ptr(), writes.len(), a.as_mut_ptr()) };
            });
            timed(&mut theirs, slots, || {
                told = plain_block(std::hint::black_box(&tasks), policy, std::hint::black_box(&next), std::hint::black_box(&writes));
            });
        }
        assert_eq!((a, proved as u8), told);
        println!("block, policy {policy}: proved {ours:.1} ns a slot, plain Rust {theirs:.1} ns, ratio {:.2}", ours / theirs);
    }
}

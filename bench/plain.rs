// The slot rule in plain Rust.
use std::hash::{Hash, Hasher};

#[derive(Clone, Copy, PartialEq, Eq)]
pub struct Job {
    pub task: usize,
    pub work: u8,
    pub left: u8,
}

// A job is hashed as one number: field by field takes about three times as long.
impl Hash for Job {
    fn hash<H: Hasher>(&self, state: &mut H) {
        state.write_u32(u32::from_be_bytes([0, self.task as u8, self.work, self.left]));
    }
}

pub struct Task {
    pub work: u8,
    pub window: u8,
    pub value: u16,
    pub locked: bool,
}

// One slot by the rules, with the jobs in release order: the place of the job that ran and the job as the slot leaves it, and the gain.
pub fn slot(tasks: &[Task], policy: u8, jobs: &mut Vec<Job>, label: u8) -> (Option<(usize, Job)>, u16) {
    for (i, t) in tasks.iter().enumerate() {
        if label >> i & 1 == 1 {
            jobs.push(Job { task: i + 1, work: t.work, left: t.window });
        }
    }
    // held or not, then the policy's key, as one number
    let key = |j: &Job| {
        let t = &tasks[j.task - 1];
        let waits = !(t.locked && j.work < t.work);
        let [a, b, c] = match policy {
            1 => [j.left, j.task as u8, 0],
            2 => [j.work, j.task as u8, j.left],
            3 => [10 + j.left - t.window, j.task as u8, 0],
            _ => [j.task as u8, j.left, 0],
        };
        u32::from_be_bytes([waits as u8, a, b, c])
    };
    let first = (0..jobs.len()).min_by_key(|&k| key(&jobs[k]));
    let mut gain = 0;
    if let Some(k) = first {
        jobs[k].work -= 1;
        if jobs[k].work == 0 {
            gain = tasks[jobs[k].task - 1].value;
        }
    }
    for j in jobs.iter_mut() {
        j.left -= 1;
    }
    let ran = first.map(|k| (k, jobs[k]));
    jobs.retain(|j| j.work > 0 && j.left > 0);
    (ran, gain)
}

// A plan and its graph in plain Rust, and what the times of the check and of the solver share.
use crate::plain::{slot, Job, Task};
use std::collections::HashMap;
use std::time::Instant;

// ---- the plan, taken as sound

pub struct Plan {
    pub tasks: Vec<Task>,
    pub masks: Vec<Vec<u16>>,
    pub policy: u8,
    pub next: [[Option<u8>; 16]; 16],
}

pub fn read_plan(bytes: &[u8]) -> Plan {
    let mut plan = Plan { tasks: vec![], masks: vec![], policy: 0, next: [[None; 16]; 16] };
    let mut at = 0;
    while at < bytes.len() {
        let b = &bytes[at..];
        at += match b[0] {
            1 => {
                let (work, window, value) = (b[1], b[2], u16::from_be_bytes([b[3], b[4]]));
                let fits = |m: &u16| m.count_ones() == work as u32 && *m < 1 << window;
                plan.masks.push((1..1024).filter(fits).collect());
                plan.tasks.push(Task { work, window, value, locked: false });
                5
            }
            2 => {
                plan.policy = b[1];
                2
            }
            9 => {
                let i = b[1] as usize - 1;
                plan.tasks[i].locked = true;
                plan.masks[i].retain(|m| ((m >> m.trailing_zeros()) + 1).is_power_of_two());
                2
            }
            3 => 2,
            4 => {
                plan.next[b[1] as usize][b[2] as usize] = Some(b[3]);
                4
            }
            _ => 1,
        }
    }
    plan
}

// ---- the graph

#[derive(Clone, PartialEq, Eq, Hash)]
pub struct Node {
    pub jobs: Vec<Job>,
    pub taken: u16,
    pub state: u8,
}

// Each admitted label, the node that it leads to but for its pattern, and the policy's gain.
pub fn leads<'a>(plan: &'a Plan, node: &'a Node) -> impl Iterator<Item = (u8, Node, u16)> + 'a {
    (0..1u8 << plan.tasks.len()).filter_map(move |label| {
        let state = plan.next[node.state as usize][label as usize]?;
        let mut to = Node { jobs: node.jobs.clone(), taken: 0, state };
        let (_, kept) = slot(&plan.tasks, plan.policy, &mut to.jobs, label);
        Some((label, to, kept))
    })
}

// Masks for the tasks before i: the pattern with them, and the clairvoyant's gain.
#[derive(Clone, Copy, PartialEq, Eq, PartialOrd, Ord)]
pub struct Choice {
    pub gain: u32,
    pub taken: u16,
    pub masks: [u16; 4],
}

// Every choice for the tasks from i on, in order.
pub fn choices(plan: &Plan, label: u8, i: usize, c: Choice, each: &mut impl FnMut(Choice)) {
    if i == plan.tasks.len() {
        return each(c);
    }
    choices(plan, label, i + 1, c, each);
    if label >> i & 1 == 1 {
        for &m in &plan.masks[i] {
            if m & c.taken == 0 {
                let mut with = Choice { gain: c.gain + plan.tasks[i].value as u32, taken: c.taken | m, masks: c.masks };
                with.masks[i] = m;
                choices(plan, label, i + 1, with, each);
            }
        }
    }
}

// The patterns that a label's choices leave, with their gains: for every choice, or with BEST once for each pattern, with its
// largest gain.
pub fn outcomes<const BEST: bool>(plan: &Plan, label: u8, taken: u16, each: &mut impl FnMut(u16, u32)) {
    let none = Choice { gain: 0, taken, masks: [0; 4] };
    if !BEST {
        return choices(plan, label, 0, none, &mut |c| each(c.taken >> 1, c.gain));
    }
    let mut best = [None; 512];
    let mut order = vec![];
    choices(plan, label, 0, none, &mut |c| {
        let b = &mut best[c.taken as usize >> 1];
        if b.is_none() {
            order.push(c.taken >> 1);
        }
        *b = (*b).max(Some(c.gain));
    });
    for pattern in order {
        each(pattern, best[pattern as usize].unwrap());
    }
}

pub struct Graph {
    pub nodes: Vec<Node>,
    pub numbers: HashMap<Node, usize>,
}

pub fn discover<const BEST: bool>(plan: &Plan) -> Option<Graph> {
    let start = Node { jobs: vec![], taken: 0, state: 0 };
    let mut numbers = HashMap::from([(start.clone(), 0)]);
    let mut nodes = vec![start];
    let mut u = 0;
    while u < nodes.len() {
        let node = nodes[u].clone();
        for (label, mut to, _) in leads(plan, &node) {
            outcomes::<BEST>(plan, label, node.taken, &mut |pattern, _| {
                to.taken = pattern;
                if !numbers.contains_key(&to) {
                    numbers.insert(to.clone(), nodes.len());
                    nodes.push(to.clone());
                }
            });
            if nodes.len() > 1024 {
                return None;
            }
        }
        u += 1;
    }
    Some(Graph { nodes, numbers })
}

// ---- shared

// The largest long-read plan known: four tasks with C 2 and D 10 under EDF. All four are released in two slots or in none, so that its 1,024
// nodes have 1,939,509 edges.
pub const LARGEST: [u8; 37] = [
    1, 2, 10, 255, 255, 1, 2, 10, 200, 7, 1, 2, 10, 150, 11, 1, 2, 10, 0, 13, 2, 1, 3, 3, 4, 0, 0, 0, 4, 0, 15, 1, 4, 1, 15, 2, 5,
];

pub fn gcd(a: u32, b: u32) -> u32 {
    if b == 0 { a } else { gcd(b, a % b) }
}

extern "C" {
    fn jovnetal_solve(plan: *const u8, plan_len: usize, work: *mut u8, work_len: usize, out: *mut u8, out_len: usize, passes: *mut u64) -> u64;
}

// The certificate that the proved solver writes, and the number of passes for its fraction.
pub fn proved_certificate(plan: &[u8], work: &mut [u8]) -> (Vec<u8>, u64) {
    let mut out = vec![0; 19471];
    let mut passes = 0;
    let n = unsafe { jovnetal_solve(plan.as_ptr(), plan.len(), work.as_mut_ptr(), work.len(), out.as_mut_ptr(), out.len(), &mut passes) };
    out.truncate(n as usize);
    (out, passes)
}

// The answer of a call; its milliseconds, where they are the fewest so far.
pub fn timed<T>(fewest: &mut f64, call: impl FnOnce() -> T) -> T {
    let start = Instant::now();
    let answer = call();
    *fewest = fewest.min(start.elapsed().as_secs_f64() * 1e3);
    answer
}

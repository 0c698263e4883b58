//! Brings the customer's six modules in unchanged, from HARBOR_SRC or from the folder beside the checkout, and adds readers of
//! private fields below each, for comparisons.

use std::{env, fs, path::PathBuf};

/// What is added below a module, so that tests can see and set what it keeps to itself.
const READERS: [(&str, &str); 6] = [
    (
        "runqueue",
        r#"
impl<const CAP: usize> RunQueue<CAP> {
    pub fn head(&self) -> usize {
        self.head
    }
    pub fn places(&self) -> &[TaskId; CAP] {
        &self.slots
    }
}
"#,
    ),
    (
        "wake",
        r#"
impl<const N: usize> WakeQueue<N> {
    pub fn set_drops(&self, v: u32) {
        self.drops.store(v, Ordering::Relaxed);
    }
    pub fn places(&mut self) -> ([u32; N], usize, usize) {
        (*self.slots.get_mut(), *self.head.get_mut(), *self.tail.get_mut())
    }
    pub fn contents(&mut self) -> Vec<u32> {
        let (slots, head, tail) = self.places();
        (0..(head + N - tail) % N).map(|i| slots[(tail + i) % N]).collect()
    }
    pub fn copy(&mut self) -> Self {
        let (slots, head, tail) = self.places();
        Self {
            slots: UnsafeCell::new(slots),
            head: AtomicUsize::new(head),
            tail: AtomicUsize::new(tail),
            drops: AtomicU32::new(self.drops()),
        }
    }
}
"#,
    ),
    (
        "irqwait",
        r#"
impl WaitTable {
    pub fn entry(&self, i: usize) -> Option<(u32, TaskId)> {
        self.tasks[i].map(|t| (self.cookies[i], t))
    }
    pub fn mark(&self, slot: usize) -> Option<TaskId> {
        self.pending[slot]
    }
}
"#,
    ),
    (
        "parktime",
        r#"
impl Table {
    pub fn entry(&self, i: usize) -> Option<(TaskId, u64)> {
        let e = self.entries[i];
        e.live.then_some((e.task, e.deadline))
    }
}
"#,
    ),
    (
        "tasks",
        r#"
impl<const N: usize> Tasks<N> {
    pub fn states(&self) -> &[State; N] {
        &self.states
    }
    pub fn epochs(&self) -> &[u16; N] {
        &self.epochs
    }
    pub fn homes(&self) -> &[u8; N] {
        &self.home
    }
    pub fn marks(&self) -> [bool; N] {
        self.stealeable
    }
    pub fn ring(&self, cpu: usize) -> &RunQueue<N> {
        &self.queues[cpu]
    }
    pub fn queue(&self, cpu: usize) -> Vec<TaskId> {
        let mut all = Vec::new();
        self.queues[cpu].for_each_ready(|id| all.push(id));
        all
    }
    pub fn parked(&self) -> Option<TaskId> {
        self.parked
    }
    pub fn set_epoch(&mut self, slot: usize, epoch: u16) {
        self.epochs[slot] = epoch;
    }
    pub fn set_home(&mut self, slot: usize, cpu: u8) {
        self.home[slot] = cpu;
    }
    pub fn set_overwrites(&mut self, v: u32) {
        self.overwrites = v;
    }
    pub fn set_block_events(&mut self, v: u32) {
        self.block_events = v;
    }
    pub fn copy(&self) -> Self {
        Self {
            states: self.states,
            epochs: self.epochs,
            home: self.home,
            stealeable: self.stealeable,
            queues: self.queues.clone(),
            current: self.current,
            idle: self.idle,
            parked: self.parked,
            overwrites: self.overwrites,
            block_events: self.block_events,
            peak: self.peak,
        }
    }
}
"#,
    ),
    ("lifecycle", ""),
];

fn main() {
    let here = PathBuf::from(env::var("CARGO_MANIFEST_DIR").unwrap());
    let root = match env::var("HARBOR_SRC") {
        Ok(dir) => PathBuf::from(dir),
        Err(_) => here.join("../../shared/docs/src"),
    };
    let mut out = String::new();
    for (name, readers) in READERS {
        let file = root.join("crates/kernel-core/src").join(format!("{name}.rs"));
        println!("cargo:rerun-if-changed={}", file.display());
        let text = fs::read_to_string(&file)
            .unwrap_or_else(|e| panic!("the customer's Rust is not here ({}: {e}); set HARBOR_SRC", file.display()));
        out.push_str(&format!("#[allow(clippy::all)]\npub mod {name} {{\n{text}\n{readers}}}\n"));
    }
    println!("cargo:rerun-if-env-changed=HARBOR_SRC");
    fs::write(PathBuf::from(env::var("OUT_DIR").unwrap()).join("harbor.rs"), out).unwrap();
}

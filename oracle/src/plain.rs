//! Document 01's "When a task table is sound" and the paragraph below it, read clause by clause: a task table with nothing hidden,
//! in the layout that the Rattle code has, and what counts of the other tables. Nothing here looks at the Rattle code's own tests.

pub type Id = (u16, u16);

/// The sizes that document 01 lists for a wake queue.
pub const WAKE_SIZES: [usize; 6] = [2, 4, 8, 16, 32, 64];

/// Whether document 01 lists N for a task table or a ring.
pub fn listed(n: usize) -> bool {
    (1..=64).contains(&n)
}

pub const EMPTY: u8 = 0;
pub const READY: u8 = 1;
pub const RUNNING: u8 = 2;

/// A flag in memory is a byte: 0 or 1, as a state is one of the four codes, and any other byte is damage.
fn is_flag(b: u8) -> bool {
    b < 2
}

#[derive(Clone, PartialEq, Eq, Debug)]
pub struct Plain {
    pub n: usize,
    pub heads: [usize; 2],
    pub lens: [usize; 2],
    pub currents: [Id; 2],
    pub idles: [Id; 2],
    pub parked: u8,
    pub parked_id: Id,
    pub overwrites: u32,
    pub block_events: u32,
    pub peak: u32,
    pub states: [u8; 64],
    pub epochs: [u16; 64],
    pub homes: [u8; 64],
    pub marks: [u8; 64],
    pub ring: [Id; 128],
}

impl Plain {
    pub fn fresh(n: usize) -> Self {
        Plain {
            n,
            heads: [0; 2],
            lens: [0; 2],
            currents: [(0, 0); 2],
            idles: [(0, 0); 2],
            parked: 0,
            parked_id: (0, 0),
            overwrites: 0,
            block_events: 0,
            peak: 0,
            states: [EMPTY; 64],
            epochs: [0; 64],
            homes: [0; 64],
            marks: [0; 64],
            ring: [(0, 0); 128],
        }
    }

    /// What is queued, from head to tail.
    pub fn queue(&self, cpu: usize) -> Vec<Id> {
        (0..self.lens[cpu]).map(|j| self.ring[cpu * 64 + (self.heads[cpu] + j) % self.n]).collect()
    }

    fn known(&self, id: Id) -> bool {
        (id.0 as usize) < self.n && self.epochs[id.0 as usize] == id.1
    }

    fn started(&self, cpu: usize) -> bool {
        cpu == 0 || self.idles[1] != (0, 0)
    }

    /// Equal to a table just made; where a ring starts is not compared.
    fn is_fresh(&self) -> bool {
        let slots = 0..self.n;
        slots.clone().all(|s| self.states[s] == EMPTY && self.epochs[s] == 0 && self.homes[s] == 0 && self.marks[s] == 0)
            && self.lens == [0; 2]
            && self.currents == [(0, 0); 2]
            && self.idles == [(0, 0); 2]
            && self.parked == 0
            && self.overwrites == 0
            && self.block_events == 0
            && self.peak == 0
    }

    fn queue_sound(&self, cpu: usize) -> bool {
        let q = self.queue(cpu);
        let mut seen = [false; 64];
        q.iter().all(|&id| {
            let s = id.0 as usize;
            self.known(id) && self.states[s] == READY && self.homes[s] as usize == cpu && !std::mem::replace(&mut seen[s], true)
        })
    }

    fn cpu_sound(&self, cpu: usize) -> bool {
        let (current, idle) = (self.currents[cpu], self.idles[cpu]);
        if !self.started(cpu) {
            return current == (0, 0) && idle == (0, 0);
        }
        let home = |id: Id| self.homes[id.0 as usize] as usize == cpu;
        self.known(current)
            && home(current)
            && self.known(idle)
            && home(idle)
            && (idle == current || self.queue(cpu).contains(&idle))
            && self.marks[idle.0 as usize] == 0
            && if cpu == 0 { idle == (0, 0) } else { idle.0 != 0 }
    }

    fn parked_sound(&self) -> bool {
        let (s, e) = (self.parked_id.0 as usize, self.parked_id.1);
        self.parked == 0 || s != 0 && s < self.n && self.states[s] == EMPTY && e.wrapping_add(1) == self.epochs[s]
    }

    fn is_live(&self) -> bool {
        let slots = 0..self.n;
        let occupied = slots.clone().filter(|&s| self.states[s] != EMPTY).count();
        self.states[0] != EMPTY
            && self.lens.iter().all(|&l| l <= self.n)
            && slots.clone().all(|s| self.homes[s] < 2)
            && (0..2).all(|c| self.queue_sound(c))
            && slots.clone().filter(|&s| self.states[s] == READY).all(|s| (0..2).any(|c| self.queue(c).iter().any(|id| id.0 as usize == s)))
            && slots.clone().all(|s| {
                let current = (0..2).any(|c| self.started(c) && self.currents[c].0 as usize == s);
                (self.states[s] == RUNNING) == current
            })
            && (0..2).all(|c| self.cpu_sound(c))
            && self.parked_sound()
            && occupied <= self.peak as usize
            && self.peak as usize <= self.n
    }

    pub fn sound(&self) -> bool {
        listed(self.n)
            && self.states[..self.n].iter().all(|&s| s < 4)
            && self.marks[..self.n].iter().all(|&m| is_flag(m))
            && is_flag(self.parked)
            && self.heads.iter().all(|&h| h < self.n)
            && (self.is_fresh() || self.is_live())
    }
}

/// "N listed, head below N, length at most N"
pub fn ring_sound(n: usize, head: usize, len: usize) -> bool {
    listed(n) && head < n && len <= n
}

/// "C listed, both indexes below C"
pub fn wakes_sound(c: usize, head: usize, tail: usize) -> bool {
    WAKE_SIZES.contains(&c) && head < c && tail < c
}

fn distinct<T: PartialEq>(all: &[T]) -> bool {
    (0..all.len()).all(|i| !all[..i].contains(&all[i]))
}

/// "live ids distinct". An entry is its flag and its id.
pub fn deadlines_sound(entries: &[(u8, Id)]) -> bool {
    let live: Vec<Id> = entries.iter().filter(|e| e.0 != 0).map(|e| e.1).collect();
    entries.iter().all(|e| is_flag(e.0)) && distinct(&live)
}

/// "live cookies distinct, live ids distinct with slot below 64, each mark kept under its own slot". A waiter is its flag, its cookie
/// and its id, a mark its flag and its id.
pub fn waits_sound(waiters: &[(u8, u32, Id)], marks: &[(u8, Id)]) -> bool {
    let live = waiters.iter().filter(|w| w.0 != 0);
    let (cookies, ids): (Vec<u32>, Vec<Id>) = live.map(|&(_, cookie, id)| (cookie, id)).unzip();
    waiters.iter().all(|w| is_flag(w.0))
        && marks.iter().all(|m| is_flag(m.0))
        && distinct(&cookies)
        && distinct(&ids)
        && ids.iter().all(|id| id.0 < 64)
        && marks.iter().enumerate().all(|(slot, &(set, id))| set == 0 || id.0 as usize == slot)
}

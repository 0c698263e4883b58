//! Tables as they cross the boundary, put to document 01's clauses as `oracle::plain` reads them. Nothing here looks at the Rattle code's
//! own tests.

use bredumalt::{RunQueue, Table, TaskId, Tasks, WaitTable, WakeQueue};
use oracle::plain::{self, Id, Plain};

fn pair(t: TaskId) -> Id {
    (t.slot, t.epoch)
}

pub fn tasks(t: &Tasks) -> bool {
    let s = &t.small;
    let plain = Plain {
        n: s.n,
        heads: s.heads,
        lens: s.lens,
        currents: s.currents.map(pair),
        idles: s.idles.map(pair),
        parked: s.parked,
        parked_id: pair(s.parked_id),
        overwrites: s.overwrites,
        block_events: s.block_events,
        peak: s.peak,
        states: t.states,
        epochs: t.epochs,
        homes: t.homes,
        marks: t.marks,
        ring: std::array::from_fn(|i| (t.ring_slots[i], t.ring_epochs[i])),
    };
    plain.sound()
}

pub fn waits(t: &WaitTable) -> bool {
    let marks: [(u8, Id); 64] = std::array::from_fn(|slot| (t.pending[slot], (t.pending_slots[slot], t.pending_epochs[slot])));
    plain::waits_sound(&t.waiters.all.map(|w| (w.live, w.cookie.0, pair(w.task))), &marks)
}

pub fn deadlines(t: &Table) -> bool {
    plain::deadlines_sound(&t.entries.map(|e| (e.live, pair(e.task))))
}

pub fn wakes(q: &WakeQueue) -> bool {
    plain::wakes_sound(q.ends.c, q.ends.head, q.ends.tail)
}

pub fn ring(q: &RunQueue) -> bool {
    plain::ring_sound(q.span.n, q.span.head, q.span.len)
}

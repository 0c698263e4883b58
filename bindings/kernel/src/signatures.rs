// Every public name of the six modules, with its whole type. `main.rs` reads this twice: `six` is the customer's modules, then ours. What
// stands after `six::` is what the script `names` takes for listed.
use six::runqueue::{Full, RunQueue, TaskId};
use six::tasks::{Decision, State, Switch, Tasks};
use six::wake::WakeQueue;
use six::{irqwait, lifecycle, parktime};
use std::fmt::Debug;
use std::hash::Hash;

fn value<T: Clone + Copy + Debug + PartialEq + Eq>() {}
fn made_by_default<T: Default>() {}
fn in_static<T: Send + Sync>() {}

pub fn of_runqueue<const N: usize>() {
    value::<six::runqueue::TaskId>();
    fn hashed<T: Hash>() {}
    hashed::<TaskId>();
    let _: fn(u16, u16) -> TaskId = six::runqueue::TaskId::new;
    let _: fn(TaskId) -> usize = six::runqueue::TaskId::slot;
    let _: fn(TaskId) -> u16 = six::runqueue::TaskId::epoch;
    let _: fn(TaskId) -> u32 = six::runqueue::TaskId::to_raw;
    let _: fn(u32) -> TaskId = six::runqueue::TaskId::from_raw;
    const ID: TaskId = TaskId::from_raw(TaskId::new(3, 2).to_raw());
    const _: () = assert!(ID.slot() == 3 && ID.epoch() == 2);

    value::<six::runqueue::Full>();
    let _: Full = six::runqueue::Full;

    fn cloned<T: Clone + Debug>() {}
    cloned::<six::runqueue::RunQueue<N>>();
    made_by_default::<RunQueue<N>>();
    in_static::<RunQueue<N>>();
    const _: RunQueue<57> = RunQueue::new();
    let _: fn() -> RunQueue<N> = six::runqueue::RunQueue::<N>::new;
    let _: fn(&RunQueue<N>) -> usize = six::runqueue::RunQueue::<N>::capacity;
    let _: fn(&RunQueue<N>) -> usize = six::runqueue::RunQueue::<N>::len;
    let _: fn(&RunQueue<N>) -> bool = six::runqueue::RunQueue::<N>::is_empty;
    let _: fn(&RunQueue<N>) -> bool = six::runqueue::RunQueue::<N>::is_full;
    let _: fn(&mut RunQueue<N>, TaskId) -> Result<(), Full> = six::runqueue::RunQueue::<N>::enqueue;
    let _: fn(&mut RunQueue<N>) -> Option<TaskId> = six::runqueue::RunQueue::<N>::dequeue;
    let _: fn(&RunQueue<N>) -> Option<TaskId> = six::runqueue::RunQueue::<N>::front;
    let _ = |queue: &RunQueue<N>, f: &mut dyn FnMut(TaskId)| -> () { six::runqueue::RunQueue::<N>::for_each_ready(queue, f) };
    let _: fn(&mut RunQueue<N>, Option<TaskId>) -> Result<Option<TaskId>, Full> = six::runqueue::RunQueue::<N>::after_yield;
}

pub fn of_wake<const N: usize>() {
    made_by_default::<six::wake::WakeQueue<N>>();
    in_static::<WakeQueue<N>>();
    const _: WakeQueue<32> = WakeQueue::new();
    let _: fn() -> WakeQueue<N> = six::wake::WakeQueue::<N>::new;
    let _: fn(&WakeQueue<N>, u32) -> bool = six::wake::WakeQueue::<N>::push;
    let _: fn(&WakeQueue<N>) -> Option<u32> = six::wake::WakeQueue::<N>::pop;
    let _: fn(&WakeQueue<N>) -> u32 = six::wake::WakeQueue::<N>::drops;
    let _: fn(&WakeQueue<N>) -> bool = six::wake::WakeQueue::<N>::is_empty;
}

pub fn of_irqwait() {
    const _: [usize; 2] = [six::irqwait::MAX_WAITERS, six::irqwait::MAX_TASK_IDS];
    const _: () = assert!(irqwait::MAX_WAITERS == 8 && irqwait::MAX_TASK_IDS == 64);
    value::<six::irqwait::ArmError>();
    let _ = |error: irqwait::ArmError| match error {
        six::irqwait::ArmError::BadTask => {}
        six::irqwait::ArmError::CookieBusy => {}
        six::irqwait::ArmError::TaskBusy => {}
        six::irqwait::ArmError::Full => {}
    };
    fn cloned<T: Clone + Debug>() {}
    cloned::<six::irqwait::WaitTable>();
    made_by_default::<irqwait::WaitTable>();
    in_static::<irqwait::WaitTable>();
    const _: irqwait::WaitTable = irqwait::WaitTable::new();
    let _: fn() -> irqwait::WaitTable = six::irqwait::WaitTable::new;
    let _: fn(&mut irqwait::WaitTable, u32, TaskId) -> Result<(), irqwait::ArmError> = six::irqwait::WaitTable::arm;
    let _: fn(&mut irqwait::WaitTable, TaskId) = six::irqwait::WaitTable::disarm_task;
    let _: fn(&mut irqwait::WaitTable, u32) -> Option<TaskId> = six::irqwait::WaitTable::signal;
    let _: fn(&mut irqwait::WaitTable, TaskId) -> bool = six::irqwait::WaitTable::take_pending;
    let _: fn(&irqwait::WaitTable, TaskId) -> bool = six::irqwait::WaitTable::is_pending;
}

pub fn of_parktime() {
    const _: usize = six::parktime::MAX_ARMED;
    const _: () = assert!(parktime::MAX_ARMED == 16);
    value::<six::parktime::ArmError>();
    let _ = |error: parktime::ArmError| match error {
        six::parktime::ArmError::Full => {}
    };
    fn cloned<T: Clone>() {}
    cloned::<six::parktime::Table>();
    made_by_default::<parktime::Table>();
    in_static::<parktime::Table>();
    const _: parktime::Table = parktime::Table::new();
    let _: fn() -> parktime::Table = six::parktime::Table::new;
    let _: fn(&mut parktime::Table, TaskId, u64) -> Result<(), parktime::ArmError> = six::parktime::Table::arm;
    let _: fn(&mut parktime::Table, TaskId) = six::parktime::Table::disarm;
    let _: fn(&mut parktime::Table, u64, &mut [TaskId; 16]) -> usize = six::parktime::Table::poll;
}

pub fn of_tasks<const N: usize>() {
    value::<six::tasks::State>();
    let _ = |state: State| match state {
        six::tasks::State::Empty => {}
        six::tasks::State::Ready => {}
        six::tasks::State::Running => {}
        six::tasks::State::Blocked => {}
    };
    value::<six::tasks::Switch>();
    let _ = |kind: Switch| match kind {
        six::tasks::Switch::Yield => {}
        six::tasks::Switch::Preempt => {}
        six::tasks::Switch::Block => {}
        six::tasks::Switch::Exit => {}
    };
    value::<six::tasks::Decision>();
    let _ = |decision: Decision| -> Option<(TaskId, TaskId, Option<TaskId>)> {
        match decision {
            six::tasks::Decision::Stay => None,
            six::tasks::Decision::Switch { from, to, release } => Some((from, to, release)),
        }
    };
    const _: usize = six::tasks::N_CPUS;
    const _: () = assert!(six::tasks::N_CPUS == 2);

    made_by_default::<six::tasks::Tasks<N>>();
    in_static::<Tasks<N>>();
    const _: Tasks<57> = Tasks::new();
    const _: TaskId = six::tasks::Tasks::<57>::IDLE;
    let _: fn() -> Tasks<N> = six::tasks::Tasks::<N>::new;
    let _: fn(&mut Tasks<N>) = six::tasks::Tasks::<N>::start;
    let _: fn(&mut Tasks<N>) -> Option<TaskId> = six::tasks::Tasks::<N>::start_cpu1;
    let _: fn(&Tasks<N>) -> bool = six::tasks::Tasks::<N>::cpu1_started;
    let _: fn(&Tasks<N>, u8) -> TaskId = six::tasks::Tasks::<N>::current_on;
    let _: fn(&Tasks<N>, u8) -> TaskId = six::tasks::Tasks::<N>::idle_of;
    let _: fn(&Tasks<N>, TaskId) -> Option<u8> = six::tasks::Tasks::<N>::home_of;
    let _: fn(&Tasks<N>) -> TaskId = six::tasks::Tasks::<N>::current;
    let _: fn(&Tasks<N>, TaskId) -> Option<State> = six::tasks::Tasks::<N>::state;
    let _: fn(&Tasks<N>, usize) -> Option<TaskId> = six::tasks::Tasks::<N>::live_id;
    let _: fn(&Tasks<N>, u8) -> bool = six::tasks::Tasks::<N>::has_ready_on;
    let _: fn(&Tasks<N>) -> bool = six::tasks::Tasks::<N>::has_ready;
    let _: fn(&Tasks<N>) -> u32 = six::tasks::Tasks::<N>::overwrites;
    let _: fn(&Tasks<N>) -> u32 = six::tasks::Tasks::<N>::blocked_count;
    let _: fn(&Tasks<N>) -> u32 = six::tasks::Tasks::<N>::block_events;
    let _: fn(&Tasks<N>) -> u32 = six::tasks::Tasks::<N>::live_count;
    let _: fn(&Tasks<N>) -> u32 = six::tasks::Tasks::<N>::peak_slots;
    let _: fn(&mut Tasks<N>) -> Option<TaskId> = six::tasks::Tasks::<N>::admit;
    let _: fn(&mut Tasks<N>, u8) -> Option<TaskId> = six::tasks::Tasks::<N>::admit_on;
    let _: fn(&mut Tasks<N>, TaskId, bool) -> bool = six::tasks::Tasks::<N>::set_stealeable;
    let _: fn(&Tasks<N>, TaskId) -> bool = six::tasks::Tasks::<N>::is_stealeable;
    let _: fn(&Tasks<N>, u8) -> bool = six::tasks::Tasks::<N>::can_steal_into;
    let _: fn(&mut Tasks<N>, u8) -> bool = six::tasks::Tasks::<N>::try_steal_into;
    let _: fn(&mut Tasks<N>, TaskId) -> bool = six::tasks::Tasks::<N>::wake;
    let _: fn(&mut Tasks<N>) -> Option<TaskId> = six::tasks::Tasks::<N>::collect;
    let _: fn(&mut Tasks<N>, Switch) -> Decision = six::tasks::Tasks::<N>::switch;
    let _: fn(&mut Tasks<N>, u8, Switch) -> Decision = six::tasks::Tasks::<N>::switch_on;
}

pub fn of_lifecycle() {
    value::<six::lifecycle::ReapError>();
    let _ = |error: lifecycle::ReapError| match error {
        six::lifecycle::ReapError::Idle => {}
        six::lifecycle::ReapError::BadId => {}
        six::lifecycle::ReapError::NotBlocked => {}
    };
    value::<six::lifecycle::ForceError>();
    let _ = |error: lifecycle::ForceError| match error {
        six::lifecycle::ForceError::Idle => {}
        six::lifecycle::ForceError::BadId => {}
        six::lifecycle::ForceError::Empty => {}
    };
    value::<six::lifecycle::ReapVerdict>();
    let _ = |verdict: lifecycle::ReapVerdict| -> Option<lifecycle::ReapError> {
        match verdict {
            six::lifecycle::ReapVerdict::Cancel => None,
            six::lifecycle::ReapVerdict::Refuse(error) => Some(error),
        }
    };
    value::<six::lifecycle::ForceVerdict>();
    let _ = |verdict: lifecycle::ForceVerdict| -> Option<lifecycle::ForceError> {
        match verdict {
            six::lifecycle::ForceVerdict::FlagAndCancel => None,
            six::lifecycle::ForceVerdict::FlagAndNudge => None,
            six::lifecycle::ForceVerdict::Refuse(error) => Some(error),
        }
    };
    value::<six::lifecycle::CancelVerdict>();
    let _ = |verdict: lifecycle::CancelVerdict| match verdict {
        six::lifecycle::CancelVerdict::MarkAndWake => {}
        six::lifecycle::CancelVerdict::Refuse => {}
    };
    let _: fn(bool, Option<State>) -> lifecycle::ReapVerdict = six::lifecycle::reap;
    let _: fn(bool, Option<State>) -> lifecycle::ForceVerdict = six::lifecycle::force;
    let _: fn(Option<State>) -> lifecycle::CancelVerdict = six::lifecycle::cancel;
}

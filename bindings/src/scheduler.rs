//! All tables of a board, with a method for each call.
use crate::{Answer, Cookie, Decision, Kind, Refusal, State, Table, TaskId, Tasks, Token, Verdict, WaitTable, WakeQueue};
use crate::{irqwait, lifecycle, parktime, tasks, wake};
use core::ops::Deref;

/// The four tables of a board: tasks, interrupt waits, deadlines and wake tokens. None of them knows of the others; what goes from one to
/// another, an id or a token, is handed over by the caller.
///
/// Every method is one call on one table, and answers by its type. What no method can answer is a `Refusal`, and then nothing has changed.
/// The fields are open, since every call takes any bits: damage is refused with `BadTable`.
///
/// Calls are made one at a time. An interrupt's handler that has calls to make shares the scheduler by a lock, or with interrupts off
/// during calls.
///
/// ```
/// use bredumalt::{Cookie, Decision, Kind, Refusal, Scheduler};
///
/// let mut s = Scheduler::new(57, 32)?;
/// s.start()?;
/// let task = s.admit()?.expect("a slot is free");
/// assert!(matches!(s.switch(Kind::Yield)?, Decision::Switch { to, .. } if to == task));
///
/// // It waits for interrupt 30, which comes, and is woken.
/// s.arm_irq(Cookie(30), task)?;
/// assert!(matches!(s.switch(Kind::Block)?, Decision::Switch { from, .. } if from == task));
/// let waiter = s.signal(Cookie(30))?.expect("somebody waits");
/// assert!(s.wake(waiter)?);
/// # Ok::<(), Refusal>(())
/// ```
#[repr(C)]
#[derive(Clone, Debug, PartialEq, Eq)]
pub struct Scheduler {
    pub tasks: Tasks,
    pub waits: WaitTable,
    pub deadlines: Table,
    pub wakes: WakeQueue,
}

/// The packed ids of the tasks whose deadlines have come, in entry order: a slice of tokens, at most 16.
///
/// ```
/// # use bredumalt::{Refusal, Scheduler, TaskId, Token};
/// let mut s = Scheduler::new(8, 4)?;
/// s.arm_deadline(TaskId::new(3, 2), 100)?;
/// let due = s.poll(100)?;
/// assert_eq!((due.len(), due.first()), (1, Some(&Token(131_075))));
/// assert_eq!(due.ids().next(), Some(TaskId::new(3, 2)));
/// # Ok::<(), Refusal>(())
/// ```
#[derive(Clone, Copy, Debug, PartialEq, Eq)]
#[must_use = "the deadlines are gone from the table"]
pub struct Due {
    tokens: [Token; 16],
    count: usize,
}

impl Due {
    /// The same as ids.
    pub fn ids(&self) -> impl Iterator<Item = TaskId> + '_ {
        self.iter().map(|&token| token.into())
    }
}

impl Deref for Due {
    type Target = [Token];

    fn deref(&self) -> &[Token] {
        &self.tokens[..self.count]
    }
}

/// Makers.
impl Scheduler {
    /// All zero, for memory that has to hold something before `init`. The task table and the wake queue are not sound, so every call on
    /// them is refused.
    ///
    /// ```
    /// # use bredumalt::{Refusal, Scheduler};
    /// let mut s = Scheduler::ZERO;
    /// assert_eq!(s.start(), Err(Refusal::BadTable));
    /// ```
    pub const ZERO: Scheduler = Scheduler { tasks: Tasks::ZERO, waits: WaitTable::ZERO, deadlines: Table::ZERO, wakes: WakeQueue::ZERO };

    /// Tables just made: `n` task slots, 1 to 64, and a wake queue of `c` places, 2, 4, 8, 16, 32 or 64, of which one stays free.
    /// `BadSize` for others.
    ///
    /// ```
    /// # use bredumalt::{Refusal, Scheduler};
    /// assert!(Scheduler::new(57, 32)?.sound());
    /// assert_eq!(Scheduler::new(65, 32), Err(Refusal::BadSize));
    /// assert_eq!(Scheduler::new(57, 33), Err(Refusal::BadSize));
    /// # Ok::<(), Refusal>(())
    /// ```
    pub fn new(n: usize, c: usize) -> Result<Scheduler, Refusal> {
        let mut s = Scheduler::ZERO;
        s.init(n, c)?;
        Ok(s)
    }

    /// The same in place, for tables that lie in a static. Where either size is not listed, all four are as they were: so the wake queue
    /// is made beside them first, and that alone lies on the stack.
    ///
    /// ```
    /// # use bredumalt::{Refusal, Scheduler};
    /// let mut s = Scheduler::ZERO;
    /// s.init(57, 32)?;
    /// assert_eq!(s, Scheduler::new(57, 32)?);
    /// s.start()?;
    /// let before = s.clone();
    /// assert_eq!(s.init(0, 32), Err(Refusal::BadSize));
    /// assert_eq!(s.init(57, 33), Err(Refusal::BadSize));
    /// assert_eq!(s, before);
    /// # Ok::<(), Refusal>(())
    /// ```
    pub fn init(&mut self, n: usize, c: usize) -> Result<(), Refusal> {
        let wakes = WakeQueue::new(c)?;
        tasks::init(&mut self.tasks, n).done()?;
        self.wakes = wakes;
        irqwait::init(&mut self.waits);
        parktime::init(&mut self.deadlines);
        Ok(())
    }

    /// Whether all four tables are sound. Calls leave them so; what else writes to them may not.
    ///
    /// ```
    /// # use bredumalt::{Refusal, Scheduler};
    /// let mut s = Scheduler::new(8, 4)?;
    /// s.tasks.marks[7] = 2;
    /// assert!(!s.sound());
    /// # Ok::<(), Refusal>(())
    /// ```
    #[must_use]
    pub fn sound(&self) -> bool {
        tasks::sound(&self.tasks) && irqwait::sound(&self.waits) && parktime::sound(&self.deadlines) && wake::sound(&self.wakes)
    }
}

/// Calls that change the task table. `NotStarted` before `start`.
impl Scheduler {
    /// Slot 0 becomes the idle task of CPU 0, and runs; `Again` the second time.
    ///
    /// ```
    /// # use bredumalt::{Refusal, Scheduler};
    /// let mut s = Scheduler::new(8, 4)?;
    /// assert_eq!(s.admit(), Err(Refusal::NotStarted));
    /// s.start()?;
    /// assert_eq!(s.start(), Err(Refusal::Again));
    /// # Ok::<(), Refusal>(())
    /// ```
    pub fn start(&mut self) -> Result<(), Refusal> {
        tasks::start(&mut self.tasks).done()
    }

    /// The lowest free slot becomes the idle task of CPU 1: its id, or none; called again the same id.
    ///
    /// ```
    /// # use bredumalt::{Refusal, Scheduler, TaskId};
    /// let mut s = Scheduler::new(8, 4)?;
    /// s.start()?;
    /// assert_eq!(s.start_cpu1()?, Some(TaskId::new(1, 0)));
    /// # Ok::<(), Refusal>(())
    /// ```
    pub fn start_cpu1(&mut self) -> Result<Option<TaskId>, Refusal> {
        tasks::start_cpu1(&mut self.tasks).named()
    }

    /// `admit_on` for CPU 0.
    ///
    /// ```
    /// # use bredumalt::{Refusal, Scheduler, TaskId};
    /// let mut s = Scheduler::new(2, 4)?;
    /// s.start()?;
    /// assert_eq!(s.admit()?, Some(TaskId::new(1, 0)));
    /// assert_eq!(s.admit()?, None);
    /// # Ok::<(), Refusal>(())
    /// ```
    pub fn admit(&mut self) -> Result<Option<TaskId>, Refusal> {
        tasks::admit(&mut self.tasks).named()
    }

    /// A new task at the tail of a CPU's queue: its id, or none where no slot is free; none for a CPU above 1.
    ///
    /// ```
    /// # use bredumalt::{Refusal, Scheduler, TaskId};
    /// let mut s = Scheduler::new(8, 4)?;
    /// s.start()?;
    /// let task = s.admit_on(1)?.expect("a slot is free");
    /// assert_eq!(s.home_of(task)?, Some(1));
    /// # Ok::<(), Refusal>(())
    /// ```
    pub fn admit_on(&mut self, cpu: u8) -> Result<Option<TaskId>, Refusal> {
        tasks::admit_on(&mut self.tasks, cpu).named()
    }

    /// Says whether other CPUs may steal the task: true, or false where the id is not known or names an idle.
    ///
    /// ```
    /// # use bredumalt::{Refusal, Scheduler, TaskId};
    /// let mut s = Scheduler::new(8, 4)?;
    /// s.start()?;
    /// let task = s.admit()?.expect("a slot is free");
    /// assert!(s.set_stealeable(task, true)?);
    /// assert!(!s.set_stealeable(TaskId::IDLE, true)?);
    /// # Ok::<(), Refusal>(())
    /// ```
    pub fn set_stealeable(&mut self, id: TaskId, mark: bool) -> Result<bool, Refusal> {
        tasks::set_stealeable(&mut self.tasks, id, mark).told()
    }

    /// A Blocked task is Ready again, at the tail at its home: true; false for any other id, that of an ended task included.
    ///
    /// ```
    /// # use bredumalt::{Kind, Refusal, Scheduler};
    /// # let mut s = Scheduler::new(8, 4)?;
    /// # s.start()?;
    /// # let task = s.admit()?.expect("a slot is free");
    /// # let _ = s.switch(Kind::Yield)?;
    /// let _ = s.switch(Kind::Block)?;
    /// assert!(s.wake(task)?);
    /// assert!(!s.wake(task)?);
    /// # Ok::<(), Refusal>(())
    /// ```
    pub fn wake(&mut self, id: TaskId) -> Result<bool, Refusal> {
        tasks::wake(&mut self.tasks, id).told()
    }

    /// Takes the parked id, whose stack may now be freed, or none.
    ///
    /// ```
    /// # use bredumalt::{Kind, Refusal, Scheduler};
    /// # let mut s = Scheduler::new(8, 4)?;
    /// # s.start()?;
    /// # let task = s.admit()?.expect("a slot is free");
    /// # let _ = s.switch(Kind::Yield)?;
    /// let _ = s.switch(Kind::Exit)?;
    /// assert_eq!(s.collect()?, Some(task));
    /// assert_eq!(s.collect()?, None);
    /// # Ok::<(), Refusal>(())
    /// ```
    pub fn collect(&mut self) -> Result<Option<TaskId>, Refusal> {
        tasks::collect(&mut self.tasks).named()
    }

    /// A CPU whose queue is empty takes the first stealeable task of its peer's: true, or false where there is none.
    ///
    /// ```
    /// # use bredumalt::{Refusal, Scheduler};
    /// let mut s = Scheduler::new(8, 4)?;
    /// s.start()?;
    /// let task = s.admit()?.expect("a slot is free");
    /// assert!(s.set_stealeable(task, true)?);
    /// assert!(s.try_steal_into(1)?);
    /// assert_eq!(s.home_of(task)?, Some(1));
    /// # Ok::<(), Refusal>(())
    /// ```
    pub fn try_steal_into(&mut self, thief: u8) -> Result<bool, Refusal> {
        tasks::try_steal_into(&mut self.tasks, thief).told()
    }

    /// `switch_on` for CPU 0.
    ///
    /// ```
    /// # use bredumalt::{Decision, Kind, Refusal, Scheduler};
    /// let mut s = Scheduler::new(8, 4)?;
    /// s.start()?;
    /// assert_eq!(s.switch(Kind::Yield)?, Decision::Stay);
    /// # Ok::<(), Refusal>(())
    /// ```
    pub fn switch(&mut self, kind: Kind) -> Result<Decision, Refusal> {
        tasks::switch(&mut self.tasks, kind).decision()
    }

    /// The current task of a CPU gives it up, and the head of its queue runs. `CpuOff` for CPU 1 before `start_cpu1`; `Stay` for a CPU
    /// above 1.
    ///
    /// ```
    /// # use bredumalt::{Decision, Kind, Refusal, Scheduler, TaskId};
    /// let mut s = Scheduler::new(8, 4)?;
    /// s.start()?;
    /// let to = s.admit()?.expect("a slot is free");
    /// assert_eq!(s.switch_on(0, Kind::Yield)?, Decision::Switch { from: TaskId::IDLE, to, release: None });
    /// assert_eq!(s.switch_on(1, Kind::Yield), Err(Refusal::CpuOff));
    /// # Ok::<(), Refusal>(())
    /// ```
    pub fn switch_on(&mut self, cpu: u8, kind: Kind) -> Result<Decision, Refusal> {
        tasks::switch_on(&mut self.tasks, cpu, kind).decision()
    }
}

/// What the task table tells.
impl Scheduler {
    /// `current_on` for CPU 0.
    ///
    /// ```
    /// # use bredumalt::{Refusal, Scheduler, TaskId};
    /// let mut s = Scheduler::new(8, 4)?;
    /// s.start()?;
    /// assert_eq!(s.current()?, TaskId::IDLE);
    /// # Ok::<(), Refusal>(())
    /// ```
    pub fn current(&self) -> Result<TaskId, Refusal> {
        tasks::current(&self.tasks).id()
    }

    /// The current task of a CPU, 0/0 before it is started; `BadCpu` for a CPU above 1.
    ///
    /// ```
    /// # use bredumalt::{Refusal, Scheduler, TaskId};
    /// let mut s = Scheduler::new(8, 4)?;
    /// s.start()?;
    /// assert_eq!(s.start_cpu1()?, Some(s.current_on(1)?));
    /// assert_eq!(s.current_on(2), Err(Refusal::BadCpu));
    /// # Ok::<(), Refusal>(())
    /// ```
    pub fn current_on(&self, cpu: u8) -> Result<TaskId, Refusal> {
        tasks::current_on(&self.tasks, cpu).id()
    }

    /// The idle task of a CPU, 0/0 before it is started; `BadCpu` for a CPU above 1.
    ///
    /// ```
    /// # use bredumalt::{Refusal, Scheduler, TaskId};
    /// let mut s = Scheduler::new(8, 4)?;
    /// s.start()?;
    /// assert_eq!(s.start_cpu1()?, Some(s.idle_of(1)?));
    /// # Ok::<(), Refusal>(())
    /// ```
    pub fn idle_of(&self, cpu: u8) -> Result<TaskId, Refusal> {
        tasks::idle_of(&self.tasks, cpu).id()
    }

    /// `has_ready_on` for CPU 0.
    ///
    /// ```
    /// # use bredumalt::{Refusal, Scheduler};
    /// let mut s = Scheduler::new(8, 4)?;
    /// s.start()?;
    /// assert!(!s.has_ready()?);
    /// # Ok::<(), Refusal>(())
    /// ```
    pub fn has_ready(&self) -> Result<bool, Refusal> {
        tasks::has_ready(&self.tasks).told()
    }

    /// Whether a task is queued for the CPU; `BadCpu` for a CPU above 1.
    ///
    /// ```
    /// # use bredumalt::{Refusal, Scheduler};
    /// let mut s = Scheduler::new(8, 4)?;
    /// s.start()?;
    /// s.admit_on(1)?;
    /// assert!(s.has_ready_on(1)? && !s.has_ready_on(0)?);
    /// # Ok::<(), Refusal>(())
    /// ```
    pub fn has_ready_on(&self, cpu: u8) -> Result<bool, Refusal> {
        tasks::has_ready_on(&self.tasks, cpu).told()
    }

    /// Whether CPU 1 is started.
    ///
    /// ```
    /// # use bredumalt::{Refusal, Scheduler};
    /// let mut s = Scheduler::new(8, 4)?;
    /// s.start()?;
    /// assert!(!s.cpu1_started()?);
    /// # Ok::<(), Refusal>(())
    /// ```
    pub fn cpu1_started(&self) -> Result<bool, Refusal> {
        tasks::cpu1_started(&self.tasks).told()
    }

    /// The state of the task, or none for an id that is not known.
    ///
    /// ```
    /// # use bredumalt::{Refusal, Scheduler, State, TaskId};
    /// let mut s = Scheduler::new(8, 4)?;
    /// s.start()?;
    /// let task = s.admit()?.expect("a slot is free");
    /// assert_eq!(s.state(task)?, Some(State::Ready));
    /// assert_eq!(s.state(TaskId::new(task.slot, task.epoch + 1))?, None);
    /// # Ok::<(), Refusal>(())
    /// ```
    pub fn state(&self, id: TaskId) -> Result<Option<State>, Refusal> {
        tasks::state(&self.tasks, id).state()
    }

    /// The CPU at which the task is at home, or none for an id that is not known.
    ///
    /// ```
    /// # use bredumalt::{Refusal, Scheduler, TaskId};
    /// let mut s = Scheduler::new(8, 4)?;
    /// s.start()?;
    /// assert_eq!(s.home_of(TaskId::IDLE)?, Some(0));
    /// assert_eq!(s.home_of(TaskId::new(8, 0))?, None);
    /// # Ok::<(), Refusal>(())
    /// ```
    pub fn home_of(&self, id: TaskId) -> Result<Option<u8>, Refusal> {
        tasks::home_of(&self.tasks, id).value().map(|cpu| cpu.map(|cpu| cpu as u8))
    }

    /// The task that a slot has, or none.
    ///
    /// ```
    /// # use bredumalt::{Refusal, Scheduler, TaskId};
    /// let mut s = Scheduler::new(8, 4)?;
    /// s.start()?;
    /// assert_eq!(s.live_id(0)?, Some(TaskId::IDLE));
    /// assert_eq!(s.live_id(1)?, None);
    /// # Ok::<(), Refusal>(())
    /// ```
    pub fn live_id(&self, slot: usize) -> Result<Option<TaskId>, Refusal> {
        tasks::live_id(&self.tasks, slot).named()
    }

    /// Whether other CPUs may steal the task.
    ///
    /// ```
    /// # use bredumalt::{Refusal, Scheduler};
    /// let mut s = Scheduler::new(8, 4)?;
    /// s.start()?;
    /// let task = s.admit()?.expect("a slot is free");
    /// assert!(!s.is_stealeable(task)?);
    /// # Ok::<(), Refusal>(())
    /// ```
    pub fn is_stealeable(&self, id: TaskId) -> Result<bool, Refusal> {
        tasks::is_stealeable(&self.tasks, id).told()
    }

    /// Whether `try_steal_into` would move a task.
    ///
    /// ```
    /// # use bredumalt::{Refusal, Scheduler};
    /// let mut s = Scheduler::new(8, 4)?;
    /// s.start()?;
    /// let task = s.admit()?.expect("a slot is free");
    /// assert!(!s.can_steal_into(1)?);
    /// s.set_stealeable(task, true)?;
    /// assert!(s.can_steal_into(1)?);
    /// # Ok::<(), Refusal>(())
    /// ```
    pub fn can_steal_into(&self, thief: u8) -> Result<bool, Refusal> {
        tasks::can_steal_into(&self.tasks, thief).told()
    }

    /// How many exits displaced a parked task, which `Decision::Switch` then named in `release`.
    ///
    /// ```
    /// # use bredumalt::{Refusal, Scheduler};
    /// assert_eq!(Scheduler::new(8, 4)?.overwrites()?, 0);
    /// # Ok::<(), Refusal>(())
    /// ```
    pub fn overwrites(&self) -> Result<u32, Refusal> {
        counted(tasks::overwrites(&self.tasks))
    }

    /// How many tasks are Blocked.
    ///
    /// ```
    /// # use bredumalt::{Refusal, Scheduler};
    /// assert_eq!(Scheduler::new(8, 4)?.blocked_count()?, 0);
    /// # Ok::<(), Refusal>(())
    /// ```
    pub fn blocked_count(&self) -> Result<u32, Refusal> {
        counted(tasks::blocked_count(&self.tasks))
    }

    /// How often a task was blocked.
    ///
    /// ```
    /// # use bredumalt::{Kind, Refusal, Scheduler};
    /// let mut s = Scheduler::new(8, 4)?;
    /// s.start()?;
    /// s.admit()?;
    /// for kind in [Kind::Yield, Kind::Block] {
    ///     let _ = s.switch(kind)?;
    /// }
    /// assert_eq!((s.block_events()?, s.blocked_count()?), (1, 1));
    /// # Ok::<(), Refusal>(())
    /// ```
    pub fn block_events(&self) -> Result<u32, Refusal> {
        counted(tasks::block_events(&self.tasks))
    }

    /// How many slots have a task.
    ///
    /// ```
    /// # use bredumalt::{Refusal, Scheduler};
    /// let mut s = Scheduler::new(8, 4)?;
    /// s.start()?;
    /// assert_eq!(s.live_count()?, 1);
    /// # Ok::<(), Refusal>(())
    /// ```
    pub fn live_count(&self) -> Result<u32, Refusal> {
        counted(tasks::live_count(&self.tasks))
    }

    /// The most slots that had a task at a time.
    ///
    /// ```
    /// # use bredumalt::{Refusal, Scheduler};
    /// let mut s = Scheduler::new(8, 4)?;
    /// s.start()?;
    /// s.admit()?;
    /// assert_eq!(s.peak_slots()?, 2);
    /// # Ok::<(), Refusal>(())
    /// ```
    pub fn peak_slots(&self) -> Result<u32, Refusal> {
        counted(tasks::peak_slots(&self.tasks))
    }
}

/// What a supervisor may do to a task: a verdict, and nothing is done; what it says, the caller does. `reap` and `force` ask whether the
/// task is idle. Which tasks count as that is the kernel's to say, so `lifecycle` takes the two facts themselves.
impl Scheduler {
    /// May a wait be ended, but not the task? `MarkAndWake` or `Nothing`.
    ///
    /// ```
    /// # use bredumalt::{Refusal, Scheduler, Verdict};
    /// let mut s = Scheduler::new(8, 4)?;
    /// s.start()?;
    /// let task = s.admit()?.expect("a slot is free");
    /// assert_eq!(s.cancel(task)?, Verdict::Nothing);
    /// # Ok::<(), Refusal>(())
    /// ```
    pub fn cancel(&self, id: TaskId) -> Result<Verdict, Refusal> {
        lifecycle::cancel(self.code(id)?)
    }

    fn code(&self, id: TaskId) -> Result<u8, Refusal> {
        Ok(self.state(id)?.map_or(lifecycle::UNKNOWN, State::number))
    }
}

/// Interrupt waits.
impl Scheduler {
    /// The task waits for the interrupt; `BadTask` for a slot of 64 or more, `CookieBusy` or `TaskBusy` where one waits already, `Full`
    /// with no free entry.
    ///
    /// ```
    /// # use bredumalt::{Cookie, Refusal, Scheduler, TaskId};
    /// let mut s = Scheduler::new(8, 4)?;
    /// s.arm_irq(Cookie(30), TaskId::new(2, 0))?;
    /// assert_eq!(s.arm_irq(Cookie(30), TaskId::new(3, 0)), Err(Refusal::CookieBusy));
    /// # Ok::<(), Refusal>(())
    /// ```
    pub fn arm_irq(&mut self, cookie: Cookie, task: TaskId) -> Result<(), Refusal> {
        irqwait::arm(&mut self.waits, cookie, task).done()
    }

    /// The task waits for no interrupt any more.
    ///
    /// ```
    /// # use bredumalt::{Cookie, Refusal, Scheduler, TaskId};
    /// let mut s = Scheduler::new(8, 4)?;
    /// s.arm_irq(Cookie(30), TaskId::new(2, 0))?;
    /// s.disarm_irq(TaskId::new(2, 0))?;
    /// assert_eq!(s.signal(Cookie(30))?, None);
    /// # Ok::<(), Refusal>(())
    /// ```
    pub fn disarm_irq(&mut self, task: TaskId) -> Result<(), Refusal> {
        irqwait::disarm_task(&mut self.waits, task).done()
    }

    /// The interrupt has come: its waiter's id or none; the waiter's entry is freed and its slot marked.
    ///
    /// ```
    /// # use bredumalt::{Cookie, Refusal, Scheduler, TaskId};
    /// let mut s = Scheduler::new(8, 4)?;
    /// s.arm_irq(Cookie(30), TaskId::new(2, 0))?;
    /// assert_eq!(s.signal(Cookie(30))?, Some(TaskId::new(2, 0)));
    /// # Ok::<(), Refusal>(())
    /// ```
    pub fn signal(&mut self, cookie: Cookie) -> Result<Option<TaskId>, Refusal> {
        irqwait::signal(&mut self.waits, cookie).named()
    }

    /// Takes the task's mark: true, or false where it has none. The next tenant of its slot can't take it.
    ///
    /// ```
    /// # use bredumalt::{Cookie, Refusal, Scheduler, TaskId};
    /// let mut s = Scheduler::new(8, 4)?;
    /// s.arm_irq(Cookie(30), TaskId::new(2, 0))?;
    /// s.signal(Cookie(30))?;
    /// assert!(!s.take_pending(TaskId::new(2, 1))?);
    /// assert!(s.take_pending(TaskId::new(2, 0))?);
    /// # Ok::<(), Refusal>(())
    /// ```
    pub fn take_pending(&mut self, task: TaskId) -> Result<bool, Refusal> {
        irqwait::take_pending(&mut self.waits, task).told()
    }

    /// Whether the task has a mark to take.
    ///
    /// ```
    /// # use bredumalt::{Refusal, Scheduler, TaskId};
    /// assert!(!Scheduler::new(8, 4)?.is_pending(TaskId::new(2, 0))?);
    /// # Ok::<(), Refusal>(())
    /// ```
    pub fn is_pending(&self, task: TaskId) -> Result<bool, Refusal> {
        irqwait::is_pending(&self.waits, task).told()
    }
}

/// Deadlines.
impl Scheduler {
    /// Sets the task's deadline, in the place of the one that it has; `Full` with no free entry.
    ///
    /// ```
    /// # use bredumalt::{Refusal, Scheduler, TaskId};
    /// let mut s = Scheduler::new(8, 4)?;
    /// for slot in 0..16 {
    ///     s.arm_deadline(TaskId::new(slot, 0), 100)?;
    /// }
    /// assert_eq!(s.arm_deadline(TaskId::new(16, 0), 100), Err(Refusal::Full));
    /// # Ok::<(), Refusal>(())
    /// ```
    pub fn arm_deadline(&mut self, task: TaskId, deadline: u64) -> Result<(), Refusal> {
        parktime::arm(&mut self.deadlines, task, deadline).done()
    }

    /// Drops the task's deadline, if it has one.
    ///
    /// ```
    /// # use bredumalt::{Refusal, Scheduler, TaskId};
    /// let mut s = Scheduler::new(8, 4)?;
    /// s.arm_deadline(TaskId::new(3, 0), 100)?;
    /// s.disarm_deadline(TaskId::new(3, 0))?;
    /// assert!(s.poll(100)?.is_empty());
    /// # Ok::<(), Refusal>(())
    /// ```
    pub fn disarm_deadline(&mut self, task: TaskId) -> Result<(), Refusal> {
        parktime::disarm(&mut self.deadlines, task).done()
    }

    /// Drops every deadline that is at most `now`, and gives the packed ids of their tasks.
    ///
    /// ```
    /// # use bredumalt::{Refusal, Scheduler, TaskId};
    /// let mut s = Scheduler::new(8, 4)?;
    /// s.arm_deadline(TaskId::new(3, 0), 100)?;
    /// assert!(s.poll(99)?.is_empty());
    /// assert_eq!(*s.poll(100)?, [TaskId::new(3, 0).into()]);
    /// # Ok::<(), Refusal>(())
    /// ```
    pub fn poll(&mut self, now: u64) -> Result<Due, Refusal> {
        let mut tokens = [Token(0); 16];
        let count = parktime::poll(&mut self.deadlines, now, &mut tokens).count()?;
        Ok(Due { tokens, count: tokens.len().min(count as usize) })
    }
}

/// Wake tokens.
impl Scheduler {
    /// Puts a token behind the others: true, or false where the queue is full and the drop is counted.
    ///
    /// ```
    /// # use bredumalt::{Refusal, Scheduler, TaskId, Token};
    /// let mut s = Scheduler::new(8, 2)?;
    /// assert!(s.push_wake(TaskId::new(3, 2).into())?);
    /// assert!(!s.push_wake(Token(1))?);
    /// # Ok::<(), Refusal>(())
    /// ```
    pub fn push_wake(&mut self, token: Token) -> Result<bool, Refusal> {
        wake::push(&mut self.wakes, token).told()
    }

    /// Takes the oldest token, or none.
    ///
    /// ```
    /// # use bredumalt::{Refusal, Scheduler, TaskId, Token};
    /// let mut s = Scheduler::new(8, 4)?;
    /// s.push_wake(TaskId::new(3, 2).into())?;
    /// assert_eq!(s.pop_wake()?.map(TaskId::from), Some(TaskId::new(3, 2)));
    /// assert_eq!(s.pop_wake()?, None);
    /// # Ok::<(), Refusal>(())
    /// ```
    pub fn pop_wake(&mut self) -> Result<Option<Token>, Refusal> {
        wake::pop(&mut self.wakes).token()
    }

    /// How many pushes found the queue full.
    ///
    /// ```
    /// # use bredumalt::{Refusal, Scheduler, Token};
    /// let mut s = Scheduler::new(8, 2)?;
    /// s.push_wake(Token(1))?;
    /// s.push_wake(Token(2))?;
    /// assert_eq!(s.drops()?, 1);
    /// # Ok::<(), Refusal>(())
    /// ```
    pub fn drops(&self) -> Result<u32, Refusal> {
        counted(wake::drops(&self.wakes))
    }

    /// Whether no token is held.
    ///
    /// ```
    /// # use bredumalt::{Refusal, Scheduler};
    /// assert!(Scheduler::new(8, 2)?.wakes_empty()?);
    /// # Ok::<(), Refusal>(())
    /// ```
    pub fn wakes_empty(&self) -> Result<bool, Refusal> {
        wake::is_empty(&self.wakes).told()
    }
}

/// A counter, none of which has more than 32 bits.
fn counted(answer: Answer) -> Result<u32, Refusal> {
    answer.count().map(|count| count as u32)
}

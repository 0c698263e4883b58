//! Drives interrupts through the customer's own `src/irq/wait.rs`, compiled as it lies, over what `kernel_core` is here: ours, or with the
//! feature `theirs` the customer's six modules. Both have to print the same. Beside it stands the lock of the customer's that it names, and
//! of a scheduler as much as an interrupt meets.
//!
//! What has to come out is also said here, worked out by hand: a queue of 32 places holds 31 tokens, and a task whose token was dropped
//! still has its mark.
use kernel_core::irqwait::{ArmError, MAX_TASK_IDS};
use kernel_core::runqueue::TaskId;
use kernel_core::tasks::{Decision, State, Switch, Tasks};

mod irq {
    include!(concat!(env!("OUT_DIR"), "/irq.rs"));
}

/// The customer's lock, as far as `wait.rs` calls it.
mod sync {
    pub struct Mutex<T>(std::sync::Mutex<T>);

    impl<T> Mutex<T> {
        pub const fn new(value: T) -> Self {
            Mutex(std::sync::Mutex::new(value))
        }

        pub fn with<R>(&self, f: impl FnOnce(&mut T) -> R) -> R {
            f(&mut self.0.lock().expect("nobody panics in here"))
        }
    }
}

/// Both say the same of every name, or one of the two does not compile.
mod signatures {
    macro_rules! of {
        ($side:ident is $six:path) => {
            pub mod $side {
                use $six as six;
                include!("signatures.rs");

                pub fn all() {
                    (of_runqueue::<57>(), of_wake::<32>(), of_irqwait(), of_parktime(), of_tasks::<57>(), of_lifecycle());
                }
            }
        };
    }
    of!(theirs is customer);
    of!(ours is bredumalt::harbor);
}

/// What firmware has to do for ours before the first interrupt.
#[cfg(not(feature = "theirs"))]
fn set_up() {
    use bredumalt::harbor::{Lock, set_lock};
    static LOCK: Lock = Lock { acquire: || 0, release: |_| () }; // no interrupts come here but as calls
    set_lock(&LOCK);
}

#[cfg(feature = "theirs")]
fn set_up() {}

/// The running task blocks until an interrupt has come, as far as the scheduler is asked.
fn wait_for(tasks: &mut Tasks<57>, cookie: u32) -> Result<(), ArmError> {
    let me = tasks.current_on(0);
    irq::wait::arm(cookie, me)?;
    if irq::wait::take_pending(me) {
        irq::wait::disarm_task(me);
        println!("{} has its interrupt already", shown(me));
        return Ok(());
    }
    let Decision::Switch { from, to, release: None } = tasks.switch_on(0, Switch::Block) else { panic!("nobody is left") };
    println!("{} waits for {cookie}, {} runs", shown(from), shown(to));
    Ok(())
}

/// Tokens become wakes: how many there were, and how many woke somebody.
fn poll_wakes(tasks: &mut Tasks<57>) -> (usize, usize) {
    let (mut tokens, mut woken) = (0, 0);
    irq::wait::drain(|token| {
        tokens += 1;
        woken += tasks.wake(TaskId::from_raw(token)) as usize;
    });
    println!("{tokens} tokens, {woken} woken");
    (tokens, woken)
}

fn counts() -> (u32, u32) {
    let counts = (irq::wait::drops(), irq::wait::signal_idle());
    println!("{} tokens dropped, {} signals for nobody or dropped", counts.0, counts.1);
    counts
}

fn shown(id: TaskId) -> String {
    format!("{}/{}", id.slot(), id.epoch())
}

fn main() {
    signatures::theirs::all();
    signatures::ours::all();
    set_up();
    let mut tasks = Tasks::<57>::new();
    tasks.start();
    let all: Vec<TaskId> = std::iter::from_fn(|| tasks.admit()).collect();
    println!("{} tasks beside idle", all.len());
    assert_eq!(all.len(), 56);

    // one interrupt: arm, block, signal, token, wake, mark
    let first = TaskId::new(1, 0);
    assert!(matches!(tasks.switch_on(0, Switch::Yield), Decision::Switch { to, .. } if to == first));
    assert_eq!(wait_for(&mut tasks, 30), Ok(()));
    assert_eq!((tasks.state(first), irq::wait::take_pending(first)), (Some(State::Blocked), false));
    assert_eq!(irq::wait::arm(30, TaskId::new(2, 0)), Err(ArmError::CookieBusy));
    assert_eq!(irq::wait::arm(31, first), Err(ArmError::TaskBusy));
    assert_eq!(irq::wait::arm(31, TaskId::new(MAX_TASK_IDS as u16, 0)), Err(ArmError::BadTask));
    irq::wait::signal(30);
    irq::wait::signal(30); // nobody waits any more
    assert_eq!(counts(), (0, 1));
    assert_eq!(poll_wakes(&mut tasks), (1, 1));
    assert_eq!(tasks.state(first), Some(State::Ready));
    assert_eq!((irq::wait::take_pending(first), irq::wait::take_pending(first)), (true, false));

    // 31 tokens fit in 32 places, and the next one is dropped: its task is marked all the same, and so not lost
    let mut waiting = Vec::new();
    for cookie in 100..132 {
        let me = tasks.current();
        assert_eq!(wait_for(&mut tasks, cookie), Ok(()));
        irq::wait::signal(cookie);
        waiting.push(me);
    }
    assert_eq!(counts(), (1, 2));
    let last = waiting[31];
    assert_eq!(poll_wakes(&mut tasks), (31, 31));
    println!("the one whose token was dropped: {} is {:?}", shown(last), tasks.state(last));
    assert_eq!(tasks.state(last), Some(State::Blocked));
    for &id in &waiting {
        assert_eq!((irq::wait::take_pending(id), irq::wait::take_pending(id)), (true, false));
    }
    assert_eq!((tasks.wake(last), poll_wakes(&mut tasks)), (true, (0, 0)));

    // a mark that came before the wait is taken by it, and a token for a task that ended wakes nobody
    let me = tasks.current();
    assert_eq!(irq::wait::arm(7, me), Ok(()));
    irq::wait::signal(7);
    assert_eq!(wait_for(&mut tasks, 8), Ok(()));
    assert!(matches!(tasks.switch(Switch::Exit), Decision::Switch { from, .. } if from == me));
    assert_eq!((poll_wakes(&mut tasks), tasks.state(me), tasks.collect()), ((1, 0), None, Some(me)));

    // the table of waiters has eight entries, and what was disarmed is free
    let busy: Vec<Result<(), ArmError>> = (0..9).map(|i| irq::wait::arm(200 + i, TaskId::new(40 + i as u16, 0))).collect();
    println!("{busy:?}");
    assert_eq!((busy[7], busy[8]), (Ok(()), Err(ArmError::Full)));
    irq::wait::disarm_task(TaskId::new(40, 0));
    irq::wait::signal(200);
    assert_eq!((irq::wait::arm(208, TaskId::new(48, 0)), counts()), (Ok(()), (1, 3)));
    println!("an interrupt was armed, signalled, dropped, taken and drained");
}

//! The module `harbor` before firmware has set anything: a refusal is a panic that names its number, and so is a wake queue without a lock.
//! One test alone, since what is set stays.
use bredumalt::Refusal;
use bredumalt::harbor::tasks::{Switch, Tasks};
use bredumalt::harbor::wake::WakeQueue;
use bredumalt::harbor::{self, Lock};
use std::panic::{AssertUnwindSafe, catch_unwind, set_hook, take_hook};
use std::sync::Mutex;

static SAID: Mutex<Vec<String>> = Mutex::new(Vec::new());

/// For a call whose answer does not count.
fn made<T>(_: T) {}

fn halt(why: Refusal) -> ! {
    panic!("the hook has {}", why.number())
}

static HALT: fn(Refusal) -> ! = halt;
static LOCK: Lock = Lock { acquire: || 0, release: |_| () };

#[test]
fn nothing_is_set() {
    let shown = take_hook();
    set_hook(Box::new(|panic| {
        let file = panic.location().map_or("", |at| at.file()).rsplit('/').next().unwrap_or("");
        let said = panic.payload();
        let text = said.downcast_ref::<String>().cloned().or(said.downcast_ref::<&str>().map(|text| text.to_string())).unwrap_or_default();
        SAID.lock().unwrap().push(format!("{file}: {text}"));
    }));
    let panics = |call: &mut dyn FnMut()| catch_unwind(AssertUnwindSafe(call)).is_err();
    let mut t = Tasks::<4>::new();
    let queue = WakeQueue::<32>::new();
    let mut all = panics(&mut || made(t.admit()));
    all &= panics(&mut || made(t.current_on(2)));
    t.start();
    all &= panics(&mut || t.start());
    all &= panics(&mut || made(t.switch_on(1, Switch::Yield)));
    all &= panics(&mut || made(queue.push(1)));
    harbor::set_refusal_hook(&HALT);
    all &= panics(&mut || t.start());
    set_hook(shown);
    assert!(all);
    harbor::set_lock(&LOCK);
    assert_eq!((queue.push(1), queue.pop(), t.live_count()), (true, Some(1), 1));
    let said = SAID.lock().unwrap();
    assert_eq!(
        said[..],
        [
            "harbor_unset.rs: bredumalt: refused with 3 NotStarted: the task table is not started",
            "harbor_unset.rs: bredumalt: refused with 5 BadCpu: there is no such CPU",
            "harbor_unset.rs: bredumalt: refused with 4 Again: the task table is started already",
            "harbor_unset.rs: bredumalt: refused with 6 CpuOff: CPU 1 is not started",
            "harbor_unset.rs: bredumalt: a wake queue is called before harbor::set_lock",
            "harbor_unset.rs: the hook has 4",
        ]
    );
}

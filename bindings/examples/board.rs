//! A board with two CPUs, a timer and an interrupt: a driver waits for interrupt 30, a time client for deadlines, a worker is stolen by the
//! CPU that has nothing to do, and the time client ends and is admitted again while a deadline of its first life is still armed. The wake
//! for the one that ended must not reach the one that has its slot now.
//!
//! It prints a line for each step, by the words of `events` where that has one. `board.txt` was worked out by hand from document 01, with
//! the reasons that stand below; `board.c` does the same, and prints the same.
use bredumalt::*;

/// A CPU's current task gives it up.
fn switch(s: &mut Scheduler, cpu: u8, kind: Kind) -> Result<(), Refusal> {
    match s.switch_on(cpu, kind)? {
        Decision::Stay => println!("switch {cpu} {kind}: stay"),
        Decision::Switch { from, to, release: None } => println!("switch {cpu} {kind}: {from} to {to}"),
        Decision::Switch { from, to, release: Some(old) } => println!("switch {cpu} {kind}: {from} to {to}, {old} to be freed"),
    }
    Ok(())
}

/// What the main loop does with tokens: it wakes whom each names, if that one is still there.
fn wake_all(s: &mut Scheduler) -> Result<(), Refusal> {
    while let Some(token) = s.pop_wake()? {
        let task = TaskId::from(token);
        if s.wake(task)? {
            println!("token {token}: wakes {task}");
        } else {
            println!("token {token}: wakes nobody");
        }
    }
    Ok(())
}

/// What the timer's handler does: every task that is due gets a token.
fn tick(s: &mut Scheduler, now: u64) -> Result<(), Refusal> {
    let due = s.poll(now)?;
    println!("poll {now}: {} due", due.len());
    for &token in due.iter() {
        assert!(s.push_wake(token)?, "a token was dropped");
    }
    wake_all(s)
}

/// What the interrupt's handler does: the waiter, if there is one, gets a token.
fn interrupt(s: &mut Scheduler, cookie: Cookie) -> Result<(), Refusal> {
    match s.signal(cookie)? {
        Some(task) => {
            println!("signal {cookie}: {task}");
            assert!(s.push_wake(task.into())?, "a token was dropped");
        }
        None => println!("signal {cookie}: -"),
    }
    wake_all(s)
}

fn main() -> Result<(), Refusal> {
    let mut s = Scheduler::new(57, 32)?;

    // CPU 0's idle has slot 0. Then the lowest free slot is 1, and goes to CPU 1's idle.
    s.start()?;
    println!("start: {} is idle on CPU 0", s.idle_of(0)?);
    let idle = s.start_cpu1()?.expect("a slot is free");
    println!("start1: {idle} is idle on CPU 1");

    // Slots 2, 3 and 4, all queued on CPU 0, in that order. Only the worker may run on either CPU.
    let driver = s.admit_on(0)?.expect("a slot is free");
    println!("admit 0: {driver}, the driver");
    let client = s.admit_on(0)?.expect("a slot is free");
    println!("admit 0: {client}, the time client");
    let worker = s.admit_on(0)?.expect("a slot is free");
    println!("admit 0: {worker}, the worker");
    println!("mark {worker} yes: {}", s.set_stealeable(worker, true)?);

    // Idle goes to the tail, and 2/0, the head, runs. It waits for interrupt 30 and blocks; 3/0 is the head.
    switch(&mut s, 0, Kind::Yield)?;
    s.arm_irq(Cookie(30), driver)?;
    println!("irq 30: {driver} waits");
    switch(&mut s, 0, Kind::Block)?;

    // 3/0 sleeps until 100, and 4/0 is the head.
    s.arm_deadline(client, 100)?;
    println!("park 100: {client} waits");
    switch(&mut s, 0, Kind::Block)?;

    // The worker's time is up: it goes to the tail, behind idle, which runs. CPU 1 has nothing queued, so its idle steals before it
    // yields: 4/0 is marked, and moves. Behind it stands CPU 1's idle.
    switch(&mut s, 0, Kind::Preempt)?;
    switch(&mut s, 1, Kind::Yield)?;
    println!("home of {worker}: CPU {}", s.home_of(worker)?.expect("it is known"));

    // The interrupt frees 2/0's entry, marks its slot and gives its id, whose token is 0 * 65,536 + 2. Woken, it is queued at its home,
    // CPU 0. When it runs, it takes the mark, once.
    interrupt(&mut s, Cookie(30))?;
    switch(&mut s, 0, Kind::Yield)?;
    println!("take {driver}: {}", s.take_pending(driver)?);
    println!("take {driver}: {}", s.take_pending(driver)?);

    // A deadline comes at its time, and not before. 3/0 is queued behind idle.
    tick(&mut s, 99)?;
    tick(&mut s, 100)?;

    // The driver waits again, and the time client runs after idle.
    s.arm_irq(Cookie(30), driver)?;
    println!("irq 30: {driver} waits");
    switch(&mut s, 0, Kind::Block)?;
    switch(&mut s, 0, Kind::Yield)?;

    // It arms its next deadline, and then it ends: nobody disarms that. Slot 3 is Empty, in epoch 1, and 3/0 is parked until its stack is
    // freed. Nobody was parked before, so there is none to release.
    s.arm_deadline(client, 200)?;
    println!("park 200: {client} waits");
    switch(&mut s, 0, Kind::Exit)?;
    println!("collect: {}", s.collect()?.expect("it is parked"));

    // The lowest free slot is 3 again, so the next time client is 3/1. It has a deadline of its own, and blocks.
    let again = s.admit_on(0)?.expect("a slot is free");
    println!("admit 0: {again}, the time client again");
    switch(&mut s, 0, Kind::Yield)?;
    s.arm_deadline(again, 300)?;
    println!("park 300: {again} waits");
    switch(&mut s, 0, Kind::Block)?;

    // The old deadline comes, for 3/0. That id is not known any more, so nobody is woken, and 3/1 sleeps on. Idle is alone on CPU 0, and
    // CPU 1 has nothing queued but its own idle, which can't be stolen: idle stays.
    tick(&mut s, 200)?;
    println!("state of {again}: {}", s.state(again)?.expect("it is known"));
    switch(&mut s, 0, Kind::Yield)?;

    // 3/1's own deadline wakes it: 1 * 65,536 + 3.
    tick(&mut s, 300)?;
    switch(&mut s, 0, Kind::Yield)?;

    // Two idles, the driver, who waits, the time client and the worker. There were four blocks.
    let (live, blocked, blocks, peak) = (s.live_count()?, s.blocked_count()?, s.block_events()?, s.peak_slots()?);
    println!("end: {live} tasks, {blocked} blocked, {blocks} blocks, peak {peak}, {} tokens dropped", s.drops()?);
    Ok(())
}

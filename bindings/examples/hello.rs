//! A task is admitted, runs, waits for an interrupt, and is woken by it. `hello.c` does the same, and prints the same.
//! A refusal of any call ends the program; nothing of an answer can be used before that is looked at.
use bredumalt::*;

fn main() -> Result<(), Refusal> {
    let mut board = Scheduler::new(57, 32)?;
    board.start()?;

    let task = board.admit()?.expect("no slot is free");
    println!("admit: {task}");
    let Decision::Switch { to, .. } = board.switch(Kind::Yield)? else { panic!("nobody else is ready") };
    println!("yield: to {to}");

    // The task waits for interrupt 30.
    board.arm_irq(Cookie(30), task)?;
    let Decision::Switch { to, .. } = board.switch(Kind::Block)? else { panic!("idle does not block") };
    println!("block: to {to}");

    // The interrupt comes: its handler pushes the waiter's token.
    let waiter = board.signal(Cookie(30))?.expect("nobody waits");
    assert!(board.push_wake(waiter.into())?, "a token was dropped");

    // The scheduler wakes whom the token names; nobody is woken twice.
    let token = board.pop_wake()?.expect("no token is there");
    println!("token: {token}");
    println!("wake: {}", board.wake(token.into())?);
    println!("wake again: {}", board.wake(task)?);

    // 4 is no kind of switch. `Kind` has no such case, so it goes to the exported call, as a number; the table is as it was, and the task
    // is Ready still.
    if tasks::switch(&mut board.tasks, 4u8).done() == Err(Refusal::BadLine) {
        println!("kind 4: refused");
    }
    if let Some(state) = board.state(task)? {
        println!("state: {state}");
    }
    Ok(())
}

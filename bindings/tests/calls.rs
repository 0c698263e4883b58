//! The calls as the other side of the boundary sees them: every refusal once, document 01's example, fields where they belong, flags,
//! damaged and not.
use bredumalt::*;

const fn id(slot: u16, epoch: u16) -> TaskId {
    TaskId::new(slot, epoch)
}

fn started(n: usize) -> Tasks {
    let mut t = Tasks::new(n).unwrap();
    assert_eq!(tasks::start(&mut t).reply(), Reply::Done);
    t
}

/// The call is refused with this number, and what it was made on is as it was.
#[track_caller]
fn refused<T: Clone + PartialEq + std::fmt::Debug>(why: Refusal, on: &mut T, call: impl FnOnce(&mut T) -> Answer) {
    let before = on.clone();
    let answer = call(on);
    assert_eq!(answer.reply(), Reply::Refused(why.number()));
    assert_eq!(answer.done(), Err(why));
    assert_eq!(*on, before);
}

// 1 to 12, each by a call that gives it; the table or the buffer is as it was. 13 is of the program events alone.
#[test]
fn every_refusal_once() {
    let mut bad = Tasks::new(4).unwrap();
    bad.small.n = 65;
    refused(Refusal::BadTable, &mut bad, tasks::start);
    assert!(!tasks::sound(&bad));
    refused(Refusal::BadTable, &mut Tasks::ZERO.clone(), tasks::start);

    assert_eq!(Tasks::new(0), Err(Refusal::BadSize));
    assert_eq!(Tasks::new(65), Err(Refusal::BadSize));
    assert_eq!(WakeQueue::new(3), Err(Refusal::BadSize));
    assert_eq!(RunQueue::new(0), Err(Refusal::BadSize));

    refused(Refusal::NotStarted, &mut Tasks::new(4).unwrap(), tasks::admit);

    let mut t = started(4);
    refused(Refusal::Again, &mut t, tasks::start);
    refused(Refusal::BadCpu, &mut t, |t| tasks::current_on(t, 2));
    refused(Refusal::BadCpu, &mut t, |t| tasks::idle_of(t, 2));
    refused(Refusal::BadCpu, &mut t, |t| tasks::has_ready_on(t, 255));
    refused(Refusal::CpuOff, &mut t, |t| tasks::switch_on(t, 1, Kind::Yield));

    let mut armed = Table::new();
    assert_eq!(parktime::arm(&mut armed, id(3, 2), 100).reply(), Reply::Done);
    let mut short = [Token(7); 15];
    refused(Refusal::ShortOut, &mut armed, |d| parktime::poll(d, 100, &mut short));
    assert_eq!(short, [Token(7); 15]);

    let mut waits = WaitTable::new();
    refused(Refusal::BadTask, &mut waits, |w| irqwait::arm(w, Cookie(30), id(64, 0)));
    assert_eq!(irqwait::arm(&mut waits, Cookie(30), id(2, 0)).reply(), Reply::Done);
    assert_eq!(irqwait::arm(&mut waits, Cookie(31), id(3, 0)).reply(), Reply::Done);
    refused(Refusal::CookieBusy, &mut waits, |w| irqwait::arm(w, Cookie(30), id(3, 0)));
    refused(Refusal::TaskBusy, &mut waits, |w| irqwait::arm(w, Cookie(31), id(2, 0)));

    let mut full = RunQueue::new(1).unwrap();
    assert_eq!(runqueue::enqueue(&mut full, id(1, 0)).reply(), Reply::Done);
    refused(Refusal::Full, &mut full, |q| runqueue::enqueue(q, id(2, 0)));

    for kind in 4..=255u8 {
        refused(Refusal::BadLine, &mut t, |t| tasks::switch(t, kind));
        refused(Refusal::BadLine, &mut bad, |t| tasks::switch_on(t, 0, kind));
    }
}

// A table is made over whatever was there, and a size that is not listed leaves it.
#[test]
fn makers_write_over_a_table_or_leave_it() {
    let (mut t, mut q, mut w) = (started(8), RunQueue::new(3).unwrap(), WakeQueue::new(8).unwrap());
    assert_eq!(runqueue::enqueue(&mut q, id(5, 1)).reply(), Reply::Done);
    assert_eq!(wake::push(&mut w, Token(7)).reply(), Reply::Told(true));
    for size in [0, 65, usize::MAX] {
        refused(Refusal::BadSize, &mut t, |t| tasks::init(t, size));
        refused(Refusal::BadSize, &mut q, |q| runqueue::init(q, size));
        refused(Refusal::BadSize, &mut w, |w| wake::init(w, size));
    }
    assert_eq!(tasks::init(&mut t, 4).reply(), Reply::Done);
    assert_eq!(runqueue::init(&mut q, 4).reply(), Reply::Done);
    assert_eq!(wake::init(&mut w, 4).reply(), Reply::Done);
    assert_eq!((t, q, w), (Tasks::new(4).unwrap(), RunQueue::new(4).unwrap(), WakeQueue::new(4).unwrap()));
}

// A line of the program events.
fn line(number: usize, answer: Answer) -> String {
    let or_none = |t: Option<TaskId>| t.map_or("-".to_string(), |t| t.to_string());
    let said = match answer.reply() {
        Reply::Refused(no) => return format!("{number} {no}\n"),
        Reply::Done => "ok".to_string(),
        Reply::Told(b) => b.to_string(),
        Reply::Number(v) => v.to_string(),
        Reply::Named(t) => or_none(t),
        Reply::Value(v) => v.map_or("-".to_string(), |v| v.to_string()),
        Reply::Stay => "stay".to_string(),
        Reply::Switch { from, to, release } => format!("{from} {to} {}", or_none(release)),
    };
    format!("{number} 0 {said}\n")
}

#[test]
fn the_example_of_document_01() {
    let script: [fn(&mut Tasks) -> Answer; 6] = [
        |t| tasks::init(t, 4),
        tasks::start,
        |t| tasks::admit_on(t, 0),
        |t| tasks::switch_on(t, 0, Kind::Yield),
        |t| tasks::switch_on(t, 0, Kind::Exit),
        tasks::collect,
    ];
    let mut t = Tasks::new(57).unwrap();
    let mut text = "events 1\n".to_string();
    for (i, call) in script.iter().enumerate() {
        text += &line(i + 1, call(&mut t));
        assert!(tasks::sound(&t));
    }
    let live = tasks::live_count(&t).count().unwrap();
    let peak = tasks::peak_slots(&t).count().unwrap();
    text += &format!("end {} {live} {} {peak}\n", script.len(), live.saturating_sub(2));
    assert_eq!(text, "events 1\n1 0 ok\n2 0 ok\n3 0 1/0\n4 0 0/0 1/0 -\n5 0 1/0 0/0 -\n6 0 1/0\nend 6 1 0 2\n");
}

// Each field of each table is where the proved side puts it.
#[test]
fn fields_are_where_they_belong() {
    let mut t = started(8);
    assert_eq!(tasks::start_cpu1(&mut t).reply(), Reply::Named(Some(id(1, 0))));
    for slot in 2..6 {
        assert_eq!(tasks::admit(&mut t).reply(), Reply::Named(Some(id(slot, 0))));
    }
    let s = t.small;
    assert_eq!((s.n, s.heads, s.lens), (8, [0, 0], [4, 0]));
    assert_eq!((s.currents, s.idles), ([id(0, 0), id(1, 0)], [id(0, 0), id(1, 0)]));
    assert_eq!((&t.ring_slots[..4], &t.states[..7]), (&[2, 3, 4, 5][..], &[2, 2, 1, 1, 1, 1, 0][..]));
    assert_eq!((t.homes[1], t.homes[2], s.peak), (1, 0, 6));

    let goes = |from, to, release| Reply::Switch { from, to, release };
    assert_eq!(tasks::switch(&mut t, Kind::Yield).reply(), goes(id(0, 0), id(2, 0), None));
    assert_eq!(tasks::switch(&mut t, Kind::Block).reply(), goes(id(2, 0), id(3, 0), None));
    assert_eq!((t.small.block_events, t.states[2], t.small.currents[0]), (1, State::Blocked.number(), id(3, 0)));
    assert_eq!(tasks::state(&t, id(2, 0)).reply(), Reply::Value(Some(3)));
    assert_eq!(tasks::state(&t, id(2, 0)).state(), Ok(Some(State::Blocked)));
    assert_eq!(tasks::state(&t, id(2, 1)).reply(), Reply::Value(None));
    assert_eq!(tasks::switch(&mut t, Kind::Exit).reply(), goes(id(3, 0), id(4, 0), None));
    assert_eq!((t.small.parked, t.small.parked_id, t.epochs[3]), (1, id(3, 0), 1));
    assert_eq!(tasks::switch(&mut t, Kind::Exit).reply(), goes(id(4, 0), id(5, 0), Some(id(3, 0))));
    assert_eq!((t.small.overwrites, t.small.parked_id), (1, id(4, 0)));
    assert_eq!(tasks::wake(&mut t, id(2, 0)).reply(), Reply::Told(true));
    assert_eq!(tasks::set_stealeable(&mut t, id(2, 0), true).reply(), Reply::Told(true));
    assert_eq!(t.marks[2], 1);
    assert_eq!((tasks::home_of(&t, id(2, 0)).reply(), tasks::blocked_count(&t).reply()), (Reply::Value(Some(0)), Reply::Number(0)));
    let mut again = started(2);
    let calls: [fn(&mut Tasks) -> Answer; 5] =
        [tasks::admit, |t| tasks::switch(t, Kind::Yield), |t| tasks::switch(t, Kind::Exit), tasks::collect, tasks::admit];
    for call in calls {
        assert_eq!(call(&mut again).done(), Ok(()));
    }
    let head = again.small.heads[0];
    assert_eq!((again.ring_slots[head], again.ring_epochs[head]), (1, 1));

    let mut q = RunQueue::new(3).unwrap();
    for slot in 1..4 {
        assert_eq!(runqueue::enqueue(&mut q, id(slot, 10 + slot)).reply(), Reply::Done);
    }
    assert_eq!(runqueue::front(&q).reply(), Reply::Named(Some(id(1, 11))));
    assert_eq!(runqueue::dequeue(&mut q).reply(), Reply::Named(Some(id(1, 11))));
    assert_eq!((q.span.n, q.span.head, q.span.len), (3, 1, 2));
    assert_eq!((&q.slots[..3], &q.epochs[..3]), (&[1, 2, 3][..], &[11, 12, 13][..]));
    assert_eq!(runqueue::ready_at(&q, 1).reply(), Reply::Named(Some(id(3, 13))));

    let mut w = WakeQueue::new(4).unwrap();
    for token in [70, 71, 72, 73] {
        assert_eq!(wake::push(&mut w, Token(token)).reply(), Reply::Told(token < 73));
    }
    let e = w.ends;
    assert_eq!((e.c, e.head, e.tail, e.drops, &w.tokens[..3]), (4, 3, 0, 1, &[70, 71, 72][..]));
    let popped = wake::pop(&mut w);
    assert_eq!((popped.reply(), popped.token(), w.ends.tail), (Reply::Value(Some(70)), Ok(Some(Token(70))), 1));

    let mut waits = WaitTable::new();
    assert_eq!(irqwait::arm(&mut waits, Cookie(30), id(5, 9)).reply(), Reply::Done);
    assert_eq!(waits.waiters.all[0], Waiter { live: 1, cookie: Cookie(30), task: id(5, 9) });
    assert_eq!(irqwait::signal(&mut waits, Cookie(30)).reply(), Reply::Named(Some(id(5, 9))));
    assert_eq!((waits.pending[5], waits.pending_slots[5], waits.pending_epochs[5]), (1, 5, 9));
    assert_eq!(irqwait::is_pending(&waits, id(5, 9)).reply(), Reply::Told(true));

    let mut d = Table::new();
    assert_eq!(parktime::arm(&mut d, id(3, 2), 1 << 40).reply(), Reply::Done);
    assert_eq!(d.entries[0], Entry { live: 1, task: id(3, 2), deadline: 1 << 40 });
    let mut out = [Token(9); 17];
    assert_eq!(parktime::poll(&mut d, 1 << 40, &mut out).reply(), Reply::Number(1));
    assert_eq!((d.entries[0].live, out[0], out[1]), (0, Token(131_075), Token(9)));
    assert_eq!((ids::to_raw(id(3, 2)), ids::from_raw(Token(131_075))), (Token(131_075), id(3, 2)));
    assert_eq!((Token::from(id(3, 2)), TaskId::from(Token(131_075))), (Token(131_075), id(3, 2)));
}

// A flag that comes back is the byte 0 or 1, and one that goes in is read as it was meant.
#[test]
fn flags_are_0_or_1() {
    let mut t = started(4);
    assert_eq!(tasks::admit(&mut t).reply(), Reply::Named(Some(id(1, 0))));
    for mark in [true, false] {
        let answer = tasks::set_stealeable(&mut t, id(1, 0), mark);
        assert_eq!(answer.reply(), Reply::Told(true));
        assert_eq!((t.marks[1], answer.flag), (mark as u8, 1));
        assert_eq!(tasks::is_stealeable(&t, id(1, 0)).reply(), Reply::Told(mark));
    }
    // Of a table that is refused, every flag stays, whatever it is.
    let mut bad = t;
    bad.small.heads[0] = 9;
    bad.small.parked = 7;
    for (i, mark) in bad.marks.iter_mut().enumerate() {
        *mark = i as u8;
    }
    refused(Refusal::BadTable, &mut bad, |t| tasks::wake(t, id(1, 0)));

    let mut q = RunQueue::new(4).unwrap();
    assert_eq!(runqueue::enqueue(&mut q, id(1, 0)).reply(), Reply::Done);
    for (requeue, left) in [(true, 1), (false, 0)] {
        let mut q = q.clone();
        assert_eq!(runqueue::after_yield(&mut q, requeue, id(2, 0)).reply(), Reply::Named(Some(id(1, 0))));
        assert_eq!(q.span.len, left);
    }
}

// A flag that is neither 0 nor 1 is damage wherever the table keeps it, live or not: every call refuses it with 1 and touches nothing.
#[test]
fn damaged_flags_are_refused() {
    let mut waits = WaitTable::new();
    assert_eq!(irqwait::arm(&mut waits, Cookie(30), id(2, 0)).reply(), Reply::Done);
    let calls: [fn(&mut WaitTable) -> Answer; 5] = [
        |w| irqwait::arm(w, Cookie(31), id(3, 0)),
        |w| irqwait::disarm_task(w, id(2, 0)),
        |w| irqwait::signal(w, Cookie(30)),
        |w| irqwait::take_pending(w, id(2, 0)),
        |w| irqwait::is_pending(w, id(2, 0)),
    ];
    for damage in [
        |w: &mut WaitTable| w.waiters.all[0].live = 3,
        |w: &mut WaitTable| w.waiters.all[7].live = 3,
        |w: &mut WaitTable| w.pending[0] = 3,
        |w: &mut WaitTable| (w.pending[63], w.pending_slots[63]) = (3, 63),
    ] {
        let mut w = waits.clone();
        damage(&mut w);
        assert!(!irqwait::sound(&w));
        for call in calls {
            refused(Refusal::BadTable, &mut w, call);
        }
    }

    let mut deadlines = Table::new();
    assert_eq!(parktime::arm(&mut deadlines, id(2, 0), 5).reply(), Reply::Done);
    for at in [0, 15] {
        let mut d = deadlines.clone();
        d.entries[at].live = 2;
        assert!(!parktime::sound(&d));
        refused(Refusal::BadTable, &mut d, |d| parktime::arm(d, id(3, 0), 5));
        refused(Refusal::BadTable, &mut d, |d| parktime::disarm(d, id(2, 0)));
        let mut out = [Token(7); 16];
        refused(Refusal::BadTable, &mut d, |d| parktime::poll(d, 5, &mut out));
        assert_eq!(out, [Token(7); 16]);
    }

    let mut t = started(4);
    assert_eq!(tasks::admit(&mut t).reply(), Reply::Named(Some(id(1, 0))));
    let calls: [fn(&mut Tasks) -> Answer; 10] = [
        tasks::start,
        tasks::start_cpu1,
        tasks::admit,
        |t| tasks::set_stealeable(t, id(1, 0), true),
        |t| tasks::wake(t, id(1, 0)),
        tasks::collect,
        |t| tasks::try_steal_into(t, 1),
        |t| tasks::switch(t, Kind::Yield),
        |t| tasks::current(t),
        |t| tasks::is_stealeable(t, id(1, 0)),
    ];
    for damage in [|t: &mut Tasks| t.marks[1] = 2, |t: &mut Tasks| t.marks[3] = 2, |t: &mut Tasks| t.small.parked = 2] {
        let mut bad = t.clone();
        damage(&mut bad);
        assert!(!tasks::sound(&bad));
        for call in calls {
            refused(Refusal::BadTable, &mut bad, call);
        }
    }
    // Places beyond the first N count for nothing.
    t.marks[4] = 2;
    assert!(tasks::sound(&t));
}

// A flag that goes in as another byte names nothing: 12, whatever the table.
#[test]
fn flag_operands_are_0_or_1() {
    let mut t = started(4);
    assert_eq!(tasks::admit(&mut t).reply(), Reply::Named(Some(id(1, 0))));
    let mut bad = t.clone();
    bad.small.n = 65;
    let mut q = RunQueue::new(4).unwrap();
    for flag in [2u8, 3, 128, 254, 255] {
        refused(Refusal::BadLine, &mut t, |t| tasks::set_stealeable(t, id(1, 0), flag));
        refused(Refusal::BadLine, &mut bad, |t| tasks::set_stealeable(t, id(1, 0), flag));
        refused(Refusal::BadLine, &mut q, |q| runqueue::after_yield(q, flag, id(1, 0)));
        refused(Refusal::BadLine, &mut RunQueue::ZERO.clone(), |q| runqueue::after_yield(q, flag, id(1, 0)));
        assert_eq!(lifecycle::reap(flag, State::Blocked), Err(Refusal::BadLine));
        assert_eq!(lifecycle::force(flag, lifecycle::UNKNOWN), Err(Refusal::BadLine));
        assert_eq!((sys::bredumalt_lifecycle_reap(flag, 3), sys::bredumalt_lifecycle_force(flag, 3)), (12, 12));
    }
}

#[test]
fn verdicts() {
    use Verdict::*;
    assert_eq!((lifecycle::reap(true, State::Blocked), lifecycle::reap(false, State::Blocked)), (Ok(Idle), Ok(Cancel)));
    assert_eq!((lifecycle::reap(false, State::Empty), lifecycle::reap(false, lifecycle::UNKNOWN)), (Ok(NotBlocked), Ok(BadId)));
    assert_eq!((lifecycle::force(true, State::Ready), lifecycle::force(false, State::Ready)), (Ok(Idle), Ok(FlagAndNudge)));
    assert_eq!((lifecycle::force(false, State::Empty), lifecycle::force(false, State::Blocked)), (Ok(Empty), Ok(FlagAndCancel)));
    assert_eq!((lifecycle::force(false, 255), lifecycle::cancel(State::Blocked)), (Ok(BadId), Ok(MarkAndWake)));
    assert_eq!((lifecycle::cancel(State::Running), lifecycle::cancel(lifecycle::UNKNOWN)), (Ok(Nothing), Ok(Nothing)));
}

// A reader of one kind of answer takes no other kind for it, and a refusal for none.
#[test]
fn answers_are_read_by_their_kind() {
    let mut t = started(4);
    let task = tasks::admit(&mut t);
    assert_eq!((task.named(), task.id()), (Ok(Some(id(1, 0))), Ok(id(1, 0))));
    assert_eq!((task.told(), task.count(), task.value(), task.decision()), (Ok(false), Ok(0), Ok(None), Ok(Decision::Stay)));
    let state = tasks::state(&t, id(1, 0));
    assert_eq!((state.value(), state.state()), (Ok(Some(1)), Ok(Some(State::Ready))));
    assert_eq!((state.named(), state.told(), state.count()), (Ok(None), Ok(false), Ok(0)));
    let switch = tasks::switch(&mut t, Kind::Yield);
    assert_eq!(switch.decision(), Ok(Decision::Switch { from: id(0, 0), to: id(1, 0), release: None }));
    let refused = tasks::current_on(&t, 2);
    assert_eq!((refused.id(), refused.told()), (Err(Refusal::BadCpu), Err(Refusal::BadCpu)));
    assert_eq!((refused.token(), refused.decision()), (Err(Refusal::BadCpu), Err(Refusal::BadCpu)));
}

// Ids, numbers and names as they are shown, and ids in their order.
#[test]
fn names_are_shown() {
    assert_eq!(format!("{} {} {}", id(3, 2), Cookie(30), Token(131_075)), "3/2 30 131075");
    assert_eq!(format!("{} {} {}", Kind::Preempt, State::Blocked, Refusal::CpuOff), "preempt Blocked CPU 1 is not started");
    assert!(id(1, 65_535) < id(2, 0) && id(2, 0) < id(2, 1));
    for number in 0..=255 {
        assert_eq!(Kind::from_number(number).map(Kind::number), (number < 4).then_some(number));
        assert_eq!(State::from_number(number).map(State::number), (number < 4).then_some(number));
        assert_eq!(Refusal::from_number(number).map(Refusal::number), (1..14).contains(&number).then_some(number));
        assert_eq!(Verdict::from_number(number).map(Verdict::number), (number < 9).then_some(number));
    }
}

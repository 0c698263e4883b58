//! The script program on the customer's tables: document 01's "The program `events`", written again in Rust from that text, as a
//! program for use would be: docs/SPEED.md holds the proved one against it. Nothing here looks at the Rattle code.

use crate::for_size;
use crate::guarded::{Guarded, Refusal};
use crate::irqwait::WaitTable;
use crate::parktime;
use crate::plain::listed;
use crate::runqueue::TaskId;
use crate::tasks::{Decision, Switch};
use crate::wake::WakeQueue;

/// The most bytes of a script, and of a line before its line feed.
pub const INPUT_MOST: usize = 65536;
const LINE_MOST: usize = 80;

const BAD_LINE: Refusal = Refusal(12);

/// A line, read.
enum Command {
    New(u16),
    Start,
    Start1,
    Admit(u8),
    Switch(u8, Switch),
    Mark(TaskId, bool),
    Steal(u8),
    Wake(TaskId),
    Collect,
    Irq(u32, TaskId),
    Unirq(TaskId),
    Signal(u32),
    Take(TaskId),
    Park(TaskId, u64),
    Unpark(TaskId),
    Poll(u64),
    Push(u32),
    Pop,
}

/// A script, and the place that it is read to.
struct Reader<'a> {
    script: &'a [u8],
    at: usize,
}

impl<'a> Reader<'a> {
    /// The byte that comes next. The end of the script ends a line as a line feed does.
    fn next(&self) -> u8 {
        self.script.get(self.at).copied().unwrap_or(b'\n')
    }

    fn skip(&mut self, byte: u8) -> Result<(), Refusal> {
        if self.next() != byte {
            return Err(BAD_LINE);
        }
        self.at += 1;
        Ok(())
    }

    /// Bytes up to a space, a line feed, or another byte that no word has.
    fn word(&mut self) -> &'a [u8] {
        let rest = &self.script[self.at..];
        let length = rest.iter().position(|&b| b <= b' ').unwrap_or(rest.len());
        self.at += length;
        &rest[..length]
    }

    /// A decimal number; its type says how large it may be.
    fn digits<T: TryFrom<u64>>(&mut self) -> Result<T, Refusal> {
        let from = self.at;
        let mut value = 0u64;
        while self.next().is_ascii_digit() {
            let digit = self.next() - b'0';
            value = value.checked_mul(10).and_then(|v| v.checked_add(digit as u64)).ok_or(BAD_LINE)?;
            self.at += 1;
        }
        if self.at == from {
            return Err(BAD_LINE);
        }
        T::try_from(value).map_err(|_| BAD_LINE)
    }

    fn number<T: TryFrom<u64>>(&mut self) -> Result<T, Refusal> {
        self.skip(b' ')?;
        self.digits()
    }

    fn id(&mut self) -> Result<TaskId, Refusal> {
        let slot = self.number()?;
        self.skip(b'/')?;
        Ok(TaskId::new(slot, self.digits()?))
    }

    fn kind(&mut self) -> Result<Switch, Refusal> {
        self.skip(b' ')?;
        match self.word() {
            b"yield" => Ok(Switch::Yield),
            b"preempt" => Ok(Switch::Preempt),
            b"block" => Ok(Switch::Block),
            b"exit" => Ok(Switch::Exit),
            _ => Err(BAD_LINE),
        }
    }

    fn yes_or_no(&mut self) -> Result<bool, Refusal> {
        self.skip(b' ')?;
        match self.word() {
            b"yes" => Ok(true),
            b"no" => Ok(false),
            _ => Err(BAD_LINE),
        }
    }

    fn command(&mut self) -> Result<Command, Refusal> {
        Ok(match self.word() {
            b"new" => Command::New(self.number()?),
            b"start" => Command::Start,
            b"start1" => Command::Start1,
            b"admit" => Command::Admit(self.number()?),
            b"switch" => Command::Switch(self.number()?, self.kind()?),
            b"mark" => Command::Mark(self.id()?, self.yes_or_no()?),
            b"steal" => Command::Steal(self.number()?),
            b"wake" => Command::Wake(self.id()?),
            b"collect" => Command::Collect,
            b"irq" => Command::Irq(self.number()?, self.id()?),
            b"unirq" => Command::Unirq(self.id()?),
            b"signal" => Command::Signal(self.number()?),
            b"take" => Command::Take(self.id()?),
            b"park" => Command::Park(self.id()?, self.number()?),
            b"unpark" => Command::Unpark(self.id()?),
            b"poll" => Command::Poll(self.number()?),
            b"push" => Command::Push(self.number()?),
            b"pop" => Command::Pop,
            _ => return Err(BAD_LINE),
        })
    }

    /// Reads a whole line, whatever it holds.
    fn line(&mut self) -> Result<Command, Refusal> {
        let from = self.at;
        let command = self.command();
        let whole = self.next() == b'\n';
        while self.next() != b'\n' {
            self.at += 1;
        }
        let length = self.at - from;
        self.at += 1;
        if whole && length <= LINE_MOST { command } else { Err(BAD_LINE) }
    }
}

/// The two digits of each number below a hundred.
const PAIRS: [[u8; 2]; 100] = {
    let mut pairs = [[0; 2]; 100];
    let mut n = 0;
    while n < 100 {
        pairs[n] = [b'0' + (n / 10) as u8, b'0' + (n % 10) as u8];
        n += 1;
    }
    pairs
};

/// The four digits of a number below ten thousand.
fn four(n: u32) -> [u8; 4] {
    let ([a, b], [c, d]) = (PAIRS[(n / 100) as usize], PAIRS[(n % 100) as usize]);
    [a, b, c, d]
}

/// The output.
struct Out(Vec<u8>);

impl Out {
    fn byte(&mut self, b: u8) {
        self.0.push(b);
    }

    fn text(&mut self, t: &[u8]) {
        self.0.extend_from_slice(t);
    }

    fn number(&mut self, n: u32) {
        match n {
            0..10 => self.byte(b'0' + n as u8),
            10..100 => self.text(&PAIRS[n as usize]),
            100..1000 => self.text(&four(n)[1..]),
            1000..10000 => self.text(&four(n)),
            _ => {
                self.number(n / 10000);
                self.text(&four(n % 10000));
            }
        }
    }

    fn id(&mut self, id: TaskId) {
        self.number(id.slot() as u32);
        self.byte(b'/');
        self.number(id.epoch() as u32);
    }

    fn told(&mut self, b: bool) {
        self.text(if b { b"0 true" } else { b"0 false" });
    }

    fn named(&mut self, id: Option<TaskId>) {
        match id {
            Some(id) => {
                self.text(b"0 ");
                self.id(id);
            }
            None => self.text(b"0 -"),
        }
    }

    fn decided(&mut self, d: Decision) {
        let Decision::Switch { from, to, release } = d else {
            return self.text(b"0 stay");
        };
        self.text(b"0 ");
        self.id(from);
        self.byte(b' ');
        self.id(to);
        self.byte(b' ');
        match release {
            Some(id) => self.id(id),
            None => self.byte(b'-'),
        }
    }
}

#[derive(Default)]
struct Tables<const N: usize> {
    tasks: Guarded<N>,
    waits: WaitTable,
    deadlines: parktime::Table,
    wakes: WakeQueue<32>,
}

impl<const N: usize> Tables<N> {
    /// Does a command and writes its answer; gives the size for a `new` that works.
    fn answer(&mut self, command: Command, out: &mut Out) -> Result<Option<usize>, Refusal> {
        match command {
            Command::New(n) if listed(n as usize) => {
                out.text(b"0 ok");
                return Ok(Some(n as usize));
            }
            Command::New(_) => return Err(Refusal(2)),
            Command::Start => {
                self.tasks.start()?;
                out.text(b"0 ok");
            }
            Command::Start1 => out.named(self.tasks.change()?.start_cpu1()),
            Command::Admit(cpu) => out.named(self.tasks.change()?.admit_on(cpu)),
            Command::Switch(cpu, kind) => out.decided(self.tasks.switch_on(cpu, kind)?),
            Command::Mark(id, yes) => out.told(self.tasks.change()?.set_stealeable(id, yes)),
            Command::Steal(cpu) => out.told(self.tasks.change()?.try_steal_into(cpu)),
            Command::Wake(id) => out.told(self.tasks.change()?.wake(id)),
            Command::Collect => out.named(self.tasks.change()?.collect()),
            Command::Irq(cookie, id) => {
                self.waits.arm(cookie, id)?;
                out.text(b"0 ok");
            }
            Command::Unirq(id) => {
                self.waits.disarm_task(id);
                out.text(b"0 ok");
            }
            Command::Signal(cookie) => out.named(self.waits.signal(cookie)),
            Command::Take(id) => out.told(self.waits.take_pending(id)),
            Command::Park(id, deadline) => {
                self.deadlines.arm(id, deadline)?;
                out.text(b"0 ok");
            }
            Command::Unpark(id) => {
                self.deadlines.disarm(id);
                out.text(b"0 ok");
            }
            Command::Poll(now) => {
                let mut due = [TaskId::new(0, 0); parktime::MAX_ARMED];
                let count = self.deadlines.poll(now, &mut due);
                out.text(b"0 ");
                out.number(count as u32);
                for &id in &due[..count] {
                    out.byte(b' ');
                    out.id(id);
                }
            }
            Command::Push(token) => out.told(self.wakes.push(token)),
            Command::Pop => match self.wakes.pop() {
                Some(token) => {
                    out.text(b"0 ");
                    out.number(token);
                }
                None => out.text(b"0 -"),
            },
        }
        Ok(None)
    }
}

/// Where lines on the tables of one size stopped.
enum Stop {
    New(usize),
    End { live: u32, peak: u32 },
}

/// A script, the lines of it that were read, and its output so far.
struct Run<'a> {
    reader: Reader<'a>,
    lines: u32,
    out: Out,
}

impl Run<'_> {
    /// Runs lines on fresh tables of N slots, up to a `new` that works or to the end.
    fn tables<const N: usize>(&mut self) -> Stop {
        let mut tables = Tables::<N>::default();
        while self.reader.at < self.reader.script.len() {
            self.lines += 1;
            self.out.number(self.lines);
            self.out.byte(b' ');
            let done = self.reader.line().and_then(|command| tables.answer(command, &mut self.out));
            if let Err(Refusal(n)) = done {
                self.out.number(n as u32);
            }
            self.out.byte(b'\n');
            if let Ok(Some(n)) = done {
                return Stop::New(n);
            }
        }
        Stop::End { live: tables.tasks.tasks.live_count(), peak: tables.tasks.tasks.peak_slots() }
    }
}

/// The whole output for a whole input.
pub fn events(input: &[u8]) -> Vec<u8> {
    let mut run = Run { reader: Reader { script: input, at: 0 }, lines: 0, out: Out(Vec::with_capacity(2 * INPUT_MOST)) };
    run.out.text(b"events 1\n");
    if input.len() > INPUT_MOST {
        run.out.text(b"0 13\n");
        return run.out.0;
    }
    let mut size = 57;
    let (live, peak) = loop {
        match for_size!(size, N => run.tables::<N>()) {
            Stop::New(n) => size = n,
            Stop::End { live, peak } => break (live, peak),
        }
    };
    run.out.text(b"end");
    for n in [run.lines, live, live.saturating_sub(2), peak] {
        run.out.byte(b' ');
        run.out.number(n);
    }
    run.out.byte(b'\n');
    run.out.0
}

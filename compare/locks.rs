//! Both locks, the plain one and the ticket lock, written from docs/RULES.md
//! alone, to hold the proved ones against.
//!
//! Ways to be called:
//!
//!   locks                            runs the script or the bench line on
//!                                    standard input
//!   locks script LOCK SLOTS OPS SEED prints a random script of OPS operations
//!   locks writes LOCK JOBS           prints a script in which slot 0 alone
//!                                    does JOBS complete writes
//!
//! LOCK is `plain` or `ticket`; SLOTS is 1 to 32.

use std::fmt::{self, Debug, Display};
use std::hint::black_box;
use std::io::{self, BufWriter, Read, Write};
use std::process::ExitCode;
use std::time::{Duration, Instant};

/// A lock has room for this many slots.
const ROOM: usize = 32;

// ---------------------------------------------------------------------------
// What a lock is
// ---------------------------------------------------------------------------

#[derive(Clone, Copy, PartialEq, Eq)]
enum Class {
    Reading,
    Writing,
}

#[derive(Clone, Copy, PartialEq, Eq)]
enum Phase {
    Idle,
    Called,
    Waits,
    Holds,
    Leaves,
}

/// Where a slot stands: idle, holding, or at a label of its lock's own table.
#[derive(Clone, Copy, PartialEq, Eq)]
enum Stand<L> {
    I,
    H,
    At(L),
}

/// Why a call is refused. No slot of these two locks is barred, so a busy slot
/// is the only reason.
enum Refusal {
    Busy = 4,
}

/// What sets one lock apart: its words, its labels and what they do.
trait Rules: Clone {
    type Label: Copy + PartialEq + Debug;

    const NAME: &'static str;

    /// The words of a fresh lock.
    fn fresh() -> Self;

    /// Where a call for this class goes.
    fn entry(class: Class) -> Self::Label;

    /// Where the finish of a holder of this class goes.
    fn exit(class: Class) -> Self::Label;

    /// Makes the one access of a step at `label` and answers what is next.
    fn access(&mut self, slot: usize, label: Self::Label) -> Stand<Self::Label>;

    /// The words that are printed after an operation of `slot`.
    fn words(&self, slot: usize) -> Vec<u32>;

    fn checksum(&self) -> u32;
}

#[derive(Clone, Copy)]
struct Slot<L> {
    phase: Phase,
    /// Of the job; without meaning while the slot is idle.
    class: Class,
    stand: Stand<L>,
}

/// A lock: its words, and what each slot is doing. The line of an ordered lock
/// is not kept here: no label reads it, and nothing prints it.
struct Lock<R: Rules> {
    words: R,
    slots: [Slot<R::Label>; ROOM],
}

impl<R: Rules> Lock<R> {
    fn fresh() -> Self {
        let idle = Slot {
            phase: Phase::Idle,
            class: Class::Reading,
            stand: Stand::I,
        };
        Lock {
            words: R::fresh(),
            slots: [idle; ROOM],
        }
    }

    #[inline(always)]
    fn call(&mut self, slot: usize, class: Class) -> Result<(), Refusal> {
        let me = &mut self.slots[slot];
        if me.phase != Phase::Idle {
            return Err(Refusal::Busy);
        }
        *me = Slot {
            phase: Phase::Called,
            class,
            stand: Stand::At(R::entry(class)),
        };
        Ok(())
    }

    /// A slot that is idle or holds stays as it is.
    #[inline(always)]
    fn step(&mut self, slot: usize) -> Phase {
        let me = &mut self.slots[slot];
        if let Stand::At(label) = me.stand {
            me.stand = self.words.access(slot, label);
            me.phase = match (me.stand, me.phase) {
                (Stand::I, _) => Phase::Idle,
                (Stand::H, _) => Phase::Holds,
                (Stand::At(_), Phase::Leaves) => Phase::Leaves,
                (Stand::At(_), _) => Phase::Waits,
            };
        }
        me.phase
    }

    /// A slot that does not hold stays as it is.
    #[inline(always)]
    fn finish(&mut self, slot: usize) -> Phase {
        let me = &mut self.slots[slot];
        if me.phase == Phase::Holds {
            me.phase = Phase::Leaves;
            me.stand = Stand::At(R::exit(me.class));
        }
        me.phase
    }

    fn run(&mut self, op: Op) -> Answer {
        match op.verb {
            Verb::Read => Answer::Called(self.call(op.slot, Class::Reading)),
            Verb::Write => Answer::Called(self.call(op.slot, Class::Writing)),
            Verb::Step => Answer::Now(self.step(op.slot)),
            Verb::Finish => Answer::Now(self.finish(op.slot)),
        }
    }

    fn phase(&self, slot: usize) -> Phase {
        self.slots[slot].phase
    }

    /// Whether a step would take the slot away from where it stands.
    fn can_move_on(&self, slot: usize) -> bool {
        match self.slots[slot].stand {
            Stand::At(label) => self.words.clone().access(slot, label) != Stand::At(label),
            Stand::I | Stand::H => false,
        }
    }
}

// ---------------------------------------------------------------------------
// The plain lock
// ---------------------------------------------------------------------------

#[derive(Clone)]
struct Plain {
    word: u32,
}

#[derive(Clone, Copy, PartialEq, Debug)]
enum PlainLabel {
    P1,
    P2,
    P3,
    P4,
    P5,
}

impl Rules for Plain {
    type Label = PlainLabel;

    const NAME: &'static str = "plain";

    fn fresh() -> Self {
        Plain { word: 0 }
    }

    fn entry(class: Class) -> PlainLabel {
        match class {
            Class::Reading => PlainLabel::P1,
            Class::Writing => PlainLabel::P4,
        }
    }

    fn exit(class: Class) -> PlainLabel {
        match class {
            Class::Reading => PlainLabel::P3,
            Class::Writing => PlainLabel::P5,
        }
    }

    #[inline(always)]
    fn access(&mut self, _slot: usize, label: PlainLabel) -> Stand<PlainLabel> {
        use PlainLabel::*;
        match label {
            P1 => {
                self.word = self.word.wrapping_add(2);
                Stand::At(P2)
            }
            P2 if self.word & 1 == 0 => Stand::H,
            P2 => Stand::At(P2),
            P3 => {
                self.word = self.word.wrapping_sub(2);
                Stand::I
            }
            P4 if self.word == 0 => {
                self.word = 1;
                Stand::H
            }
            P4 => Stand::At(P4),
            P5 => {
                self.word = self.word.wrapping_sub(1);
                Stand::I
            }
        }
    }

    fn words(&self, _slot: usize) -> Vec<u32> {
        vec![self.word]
    }

    fn checksum(&self) -> u32 {
        self.word
    }
}

// ---------------------------------------------------------------------------
// The ticket lock
// ---------------------------------------------------------------------------

#[derive(Clone)]
struct Ticket {
    requests: u32,
    completions: u32,
    kept: [u32; ROOM],
}

#[derive(Clone, Copy, PartialEq, Debug)]
enum TicketLabel {
    T1,
    T2,
    T3,
    T4,
    T5,
    T6,
}

/// Writers are counted in the lower half of a word, readers in the upper.
fn lower(word: u32) -> u32 {
    word & 0xffff
}

fn upper(word: u32) -> u32 {
    word >> 16
}

/// Counting goes 0, 1, ..., 32768, and from there to 1 again.
fn counted(half: u32) -> u32 {
    half % 32_768 + 1
}

fn count_reader(word: u32) -> u32 {
    counted(upper(word)) << 16 | lower(word)
}

fn count_writer(word: u32) -> u32 {
    upper(word) << 16 | counted(lower(word))
}

impl Rules for Ticket {
    type Label = TicketLabel;

    const NAME: &'static str = "ticket";

    fn fresh() -> Self {
        Ticket {
            requests: 0,
            completions: 0,
            kept: [0; ROOM],
        }
    }

    fn entry(class: Class) -> TicketLabel {
        match class {
            Class::Reading => TicketLabel::T1,
            Class::Writing => TicketLabel::T4,
        }
    }

    fn exit(class: Class) -> TicketLabel {
        match class {
            Class::Reading => TicketLabel::T3,
            Class::Writing => TicketLabel::T6,
        }
    }

    #[inline(always)]
    fn access(&mut self, slot: usize, label: TicketLabel) -> Stand<TicketLabel> {
        use TicketLabel::*;
        match label {
            T1 => {
                self.kept[slot] = lower(self.requests);
                self.requests = count_reader(self.requests);
                Stand::At(T2)
            }
            T2 if lower(self.completions) == self.kept[slot] => Stand::H,
            T2 => Stand::At(T2),
            T3 => {
                self.completions = count_reader(self.completions);
                Stand::I
            }
            T4 => {
                self.kept[slot] = self.requests;
                self.requests = count_writer(self.requests);
                Stand::At(T5)
            }
            T5 if self.completions == self.kept[slot] => Stand::H,
            T5 => Stand::At(T5),
            T6 => {
                self.completions = count_writer(self.completions);
                Stand::I
            }
        }
    }

    fn words(&self, slot: usize) -> Vec<u32> {
        vec![self.requests, self.completions, self.kept[slot]]
    }

    /// Takes in the *kept* of all the slots that a lock has room for, also
    /// where fewer are driven.
    fn checksum(&self) -> u32 {
        [self.requests, self.completions]
            .iter()
            .chain(&self.kept)
            .fold(0, |sum: u32, &word| sum.wrapping_mul(31).wrapping_add(word))
    }
}

// ---------------------------------------------------------------------------
// Operations, and what is printed of them
// ---------------------------------------------------------------------------

#[derive(Clone, Copy)]
enum Verb {
    Read,
    Write,
    Step,
    Finish,
}

#[derive(Clone, Copy)]
struct Op {
    verb: Verb,
    slot: usize,
}

enum Answer {
    Called(Result<(), Refusal>),
    Now(Phase),
}

impl Display for Op {
    fn fmt(&self, f: &mut fmt::Formatter) -> fmt::Result {
        let letter = match self.verb {
            Verb::Read => 'r',
            Verb::Write => 'w',
            Verb::Step => 's',
            Verb::Finish => 'f',
        };
        write!(f, "{letter} {}", self.slot)
    }
}

impl Display for Phase {
    fn fmt(&self, f: &mut fmt::Formatter) -> fmt::Result {
        f.write_str(match self {
            Phase::Idle => "idle",
            Phase::Called => "called",
            Phase::Waits => "waits",
            Phase::Holds => "holds",
            Phase::Leaves => "leaves",
        })
    }
}

impl Display for Answer {
    fn fmt(&self, f: &mut fmt::Formatter) -> fmt::Result {
        match self {
            Answer::Called(Ok(())) => f.write_str("ok"),
            Answer::Called(Err(Refusal::Busy)) => write!(f, "{}", Refusal::Busy as u32),
            Answer::Now(phase) => write!(f, "{phase}"),
        }
    }
}

impl<L: Debug> Display for Stand<L> {
    fn fmt(&self, f: &mut fmt::Formatter) -> fmt::Result {
        match self {
            Stand::I => f.write_str("I"),
            Stand::H => f.write_str("H"),
            Stand::At(label) => write!(f, "{label:?}"),
        }
    }
}

/// Runs the operations on a fresh lock and prints a line for each.
fn trace<R: Rules>(ops: &[Op], out: &mut impl Write) -> io::Result<()> {
    let mut lock = Lock::<R>::fresh();
    for &op in ops {
        let answer = lock.run(op);
        write!(out, "{answer} {}", lock.slots[op.slot].stand)?;
        for word in lock.words.words(op.slot) {
            write!(out, " {word}")?;
        }
        writeln!(out)?;
    }
    Ok(())
}

// ---------------------------------------------------------------------------
// The bench
// ---------------------------------------------------------------------------

/// Runs the fixed driver; the time is that of the loop alone.
fn drive<R: Rules>(slots: usize, steps: u64) -> (Lock<R>, Duration) {
    let mut lock = black_box(Lock::<R>::fresh());
    let (slots, steps) = black_box((slots, steps));
    // Of operation k, slot is k mod slots and round is k / slots.
    let (mut slot, mut round) = (0, 0_u64);
    let start = Instant::now();
    for _ in 0..steps {
        match lock.phase(slot) {
            Phase::Idle => {
                let class = match round % 4 {
                    0 => Class::Writing,
                    _ => Class::Reading,
                };
                let _ = lock.call(slot, class);
            }
            Phase::Holds => {
                lock.finish(slot);
            }
            Phase::Called | Phase::Waits | Phase::Leaves => {
                lock.step(slot);
            }
        }
        slot += 1;
        if slot == slots {
            slot = 0;
            round += 1;
        }
    }
    black_box(&mut lock);
    let time = start.elapsed();
    (lock, time)
}

fn bench<R: Rules>(slots: usize, steps: u64, out: &mut impl Write) -> io::Result<()> {
    let (lock, time) = drive::<R>(slots, steps);
    writeln!(out, "{} {slots} {steps} {}", R::NAME, time.as_nanos())?;
    writeln!(out, "checksum {}", lock.words.checksum())
}

// ---------------------------------------------------------------------------
// Reading the input
// ---------------------------------------------------------------------------

#[derive(Clone, Copy)]
enum Kind {
    Plain,
    Ticket,
}

enum Work {
    Trace { ops: Vec<Op> },
    Bench { slots: usize, steps: u64 },
    Script { slots: usize, ops: u64, seed: u64 },
    Writes { jobs: u64 },
}

/// What the program is to do, and on which lock.
struct Task {
    kind: Kind,
    work: Work,
}

fn kind(text: &[u8]) -> Option<Kind> {
    match text {
        b"plain" => Some(Kind::Plain),
        b"ticket" => Some(Kind::Ticket),
        _ => None,
    }
}

/// A decimal number with no leading zero, except 0 itself.
fn number(text: &[u8]) -> Option<u64> {
    let well_formed = match text {
        [] => false,
        [b'0', rest @ ..] => rest.is_empty(),
        _ => text.iter().all(u8::is_ascii_digit),
    };
    if !well_formed {
        return None;
    }
    std::str::from_utf8(text).ok()?.parse().ok()
}

/// How many slots there are: 1 to 32.
fn slot_count(text: &[u8]) -> Option<usize> {
    let slots = usize::try_from(number(text)?).ok()?;
    (1..=ROOM).contains(&slots).then_some(slots)
}

fn operation(line: &[u8]) -> Option<Op> {
    let [letter, b' ', slot @ ..] = line else {
        return None;
    };
    let verb = match letter {
        b'r' => Verb::Read,
        b'w' => Verb::Write,
        b's' => Verb::Step,
        b'f' => Verb::Finish,
        _ => return None,
    };
    let slot = usize::try_from(number(slot)?).ok()?;
    (slot < ROOM).then_some(Op { verb, slot })
}

fn bench_line(line: &[u8]) -> Option<Task> {
    let parts: Vec<&[u8]> = line.split(|&byte| byte == b' ').collect();
    let [b"bench", lock, slots, steps] = parts[..] else {
        return None;
    };
    let kind = kind(lock)?;
    let (slots, steps) = (slot_count(slots)?, number(steps)?);
    let work = Work::Bench { slots, steps };
    Some(Task { kind, work })
}

/// Reads the whole input, or answers the number of the line, from 1, that
/// can't be read. The last line's byte 10 may be left out.
fn input(text: &[u8]) -> Result<Task, usize> {
    let text = text.strip_suffix(b"\n").unwrap_or(text);
    let mut lines = text.split(|&byte| byte == b'\n');
    let first = lines.next().unwrap_or_default();
    if let Some(kind) = kind(first) {
        let ops = lines
            .enumerate()
            .map(|(at, line)| operation(line).ok_or(at + 2))
            .collect::<Result<_, _>>()?;
        let work = Work::Trace { ops };
        return Ok(Task { kind, work });
    }
    let bench = bench_line(first).ok_or(1_usize)?;
    match lines.next() {
        None => Ok(bench),
        Some(_) => Err(2),
    }
}

// ---------------------------------------------------------------------------
// Making scripts
// ---------------------------------------------------------------------------

/// A small seeded generator: a counter with a large odd stride, well mixed.
struct Random(u64);

impl Random {
    fn next(&mut self) -> u64 {
        self.0 = self.0.wrapping_add(0x9e37_79b9_7f4a_7c15);
        let mut mixed = self.0;
        mixed = (mixed ^ (mixed >> 30)).wrapping_mul(0xbf58_476d_1ce4_e5b9);
        mixed = (mixed ^ (mixed >> 27)).wrapping_mul(0x94d0_49bb_1331_11eb);
        mixed ^ (mixed >> 31)
    }

    fn below(&mut self, bound: usize) -> usize {
        (self.next() % bound as u64) as usize
    }

    fn pick<T: Copy>(&mut self, choices: &[T]) -> T {
        choices[self.below(choices.len())]
    }
}

/// An operation that the slot's phase asks for.
fn sensible(phase: Phase, random: &mut Random) -> Verb {
    match phase {
        Phase::Idle => random.pick(&[Verb::Read, Verb::Read, Verb::Write]),
        Phase::Holds => Verb::Finish,
        Phase::Called | Phase::Waits | Phase::Leaves => Verb::Step,
    }
}

/// An operation that is refused, or changes nothing, in this phase.
fn nonsense(phase: Phase, random: &mut Random) -> Verb {
    match phase {
        Phase::Idle => random.pick(&[Verb::Step, Verb::Finish]),
        Phase::Holds => random.pick(&[Verb::Read, Verb::Write, Verb::Step]),
        Phase::Called | Phase::Waits | Phase::Leaves => {
            random.pick(&[Verb::Read, Verb::Write, Verb::Finish])
        }
    }
}

/// The first slot, from `start` and around, that does not merely spin.
fn slot_that_moves<R: Rules>(lock: &Lock<R>, slots: usize, start: usize) -> usize {
    (0..slots)
        .map(|far| (start + far) % slots)
        .find(|&slot| match lock.phase(slot) {
            Phase::Idle | Phase::Holds => true,
            Phase::Called | Phase::Waits | Phase::Leaves => lock.can_move_on(slot),
        })
        .unwrap_or(start)
}

/// Of 16 operations about one is nonsense, two are of any slot, so that some
/// spin, and the others get on with a job.
fn next_op<R: Rules>(lock: &Lock<R>, slots: usize, random: &mut Random) -> Op {
    let any = random.below(slots);
    match random.below(16) {
        0 => Op {
            verb: nonsense(lock.phase(any), random),
            slot: any,
        },
        1 | 2 => Op {
            verb: sensible(lock.phase(any), random),
            slot: any,
        },
        _ => {
            let slot = slot_that_moves(lock, slots, any);
            Op {
                verb: sensible(lock.phase(slot), random),
                slot,
            }
        }
    }
}

fn random_script<R: Rules>(
    slots: usize,
    ops: u64,
    seed: u64,
    out: &mut impl Write,
) -> io::Result<()> {
    let mut lock = Lock::<R>::fresh();
    let mut random = Random(seed);
    writeln!(out, "{}", R::NAME)?;
    for _ in 0..ops {
        let op = next_op(&lock, slots, &mut random);
        lock.run(op);
        writeln!(out, "{op}")?;
    }
    Ok(())
}

fn writes_script<R: Rules>(jobs: u64, out: &mut impl Write) -> io::Result<()> {
    let mut lock = Lock::<R>::fresh();
    writeln!(out, "{}", R::NAME)?;
    for _ in 0..jobs {
        let mut verb = Verb::Write;
        loop {
            let op = Op { verb, slot: 0 };
            lock.run(op);
            writeln!(out, "{op}")?;
            verb = match lock.phase(0) {
                Phase::Idle => break,
                Phase::Holds => Verb::Finish,
                Phase::Called | Phase::Waits | Phase::Leaves => Verb::Step,
            };
        }
    }
    Ok(())
}

// ---------------------------------------------------------------------------
// The program
// ---------------------------------------------------------------------------

const USAGE: &str = "called as: locks | locks script LOCK SLOTS OPS SEED | locks writes LOCK JOBS";

fn task(args: &[Vec<u8>]) -> Result<Task, String> {
    if args.is_empty() {
        let mut text = Vec::new();
        io::stdin()
            .read_to_end(&mut text)
            .map_err(|error| format!("the input can't be read: {error}"))?;
        input(&text).map_err(|line| format!("line {line} of the input can't be read"))
    } else {
        script_wanted(args).ok_or(USAGE.to_string())
    }
}

/// The arguments that ask for a script.
fn script_wanted(args: &[Vec<u8>]) -> Option<Task> {
    let args: Vec<&[u8]> = args.iter().map(Vec::as_slice).collect();
    let (lock, work) = match args[..] {
        [b"script", lock, slots, ops, seed] => {
            let slots = slot_count(slots)?;
            let (ops, seed) = (number(ops)?, number(seed)?);
            (lock, Work::Script { slots, ops, seed })
        }
        [b"writes", lock, jobs] => {
            let jobs = number(jobs)?;
            (lock, Work::Writes { jobs })
        }
        _ => return None,
    };
    let kind = kind(lock)?;
    Some(Task { kind, work })
}

fn perform<R: Rules>(work: &Work) -> io::Result<()> {
    let mut out = BufWriter::new(io::stdout().lock());
    match *work {
        Work::Trace { ref ops } => trace::<R>(ops, &mut out)?,
        Work::Bench { slots, steps } => bench::<R>(slots, steps, &mut out)?,
        Work::Script { slots, ops, seed } => random_script::<R>(slots, ops, seed, &mut out)?,
        Work::Writes { jobs } => writes_script::<R>(jobs, &mut out)?,
    }
    out.flush()
}

fn run(args: &[Vec<u8>]) -> Result<(), String> {
    let Task { kind, work } = task(args)?;
    match kind {
        Kind::Plain => perform::<Plain>(&work),
        Kind::Ticket => perform::<Ticket>(&work),
    }
    .map_err(|error| format!("the output can't be written: {error}"))
}

fn main() -> ExitCode {
    let args: Vec<Vec<u8>> = std::env::args_os()
        .skip(1)
        .map(|arg| arg.into_encoded_bytes())
        .collect();
    match run(&args) {
        Ok(()) => ExitCode::SUCCESS,
        Err(message) => {
            eprintln!("locks: {message}");
            ExitCode::FAILURE
        }
    }
}

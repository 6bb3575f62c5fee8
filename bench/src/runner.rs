use crate::apart::Apart;
use crate::aside::Aside;
use crate::calls::Calls;
use crate::case::Case;
use crate::course::Course;
use crate::engine::{Engine, Seat};
use crate::operation::{Answer, Change, KEYS, Operation, Query, Update};
use crate::processors;
use crate::random::Random;
use crate::signals;
use crate::watch::{Blind, Stopwatch, Watch};
use crate::workload::Workload;
use std::any::type_name;
use std::hint::black_box;
use std::sync::atomic::{AtomicU64, Ordering::SeqCst};
use std::thread;
use std::time::{Duration, Instant};

/// An engine of whatever type.
pub trait Runner {
    /// Makes every second key a member, but for one.
    fn fill(&mut self, without: Option<u32>);

    /// Makes so many operations on one thread: all answers, and at last what all members come to.
    fn answers(&mut self, workload: Workload, count: u64) -> Vec<Answer>;

    /// Has threads work for so long, or longer if that is too short for one operation, or for threads that begin together.
    fn slice(&mut self, case: Case, length: Duration, pass: u64) -> Slice;
}

/// What an engine's turn came to.
pub struct Slice {
    pub operations: u64,
    pub time: Duration,
    /// The name that the engine's type has.
    pub engine: &'static str,
    /// The type that the threads worked with.
    pub seat: &'static str,
    /// How long the calls took, if threads were put aside.
    pub calls: Box<Apart<Calls>>,
}

impl Slice {
    /// Million operations a second.
    pub fn rate(&self) -> f64 {
        self.operations as f64 / self.time.as_secs_f64() / 1e6
    }
}

/// What a thread did.
struct Lap {
    seat: &'static str,
    operations: u64,
    /// By how much the set grew.
    growth: i64,
    came: Instant,
    began: Instant,
    calls: Box<Apart<Calls>>,
}

/// Makes an operation: by how much the set grew.
#[inline(always)]
fn made(seat: &mut impl Seat, operation: Operation) -> i64 {
    match operation {
        Operation::Query(query) => {
            black_box(&seat.ask(&query));
            0
        }
        Operation::Update(update) => match seat.update(update) {
            Change::Came => 1,
            Change::Left => -1,
            Change::Nothing | Change::Weighed => 0,
        },
    }
}

/// What a thread does: an operation that is not done at the end does not count.
fn lap<S: Seat, W: Watch>(seat: &mut S, workload: Workload, mut random: Random, course: &Course) -> Lap {
    let before = (0..workload.updates_before()).map(|number| made(seat, Workload::Updates.draw(number, &mut random)));
    let (mut operations, mut growth) = (0, before.sum());
    let came = Instant::now();
    course.begin();
    let began = Instant::now();
    let mut watch = W::begin();
    loop {
        growth += made(seat, workload.draw(operations, &mut random));
        if course.is_over() {
            return Lap { seat: type_name::<S>(), operations, growth, came, began, calls: watch.calls() };
        }
        watch.done();
        operations += 1;
    }
}

/// Runs a thread for each seat: their laps, and the time. What else a thread writes at each call, its counters and its random numbers, lies on
/// its own stack, or on lines of its own.
fn laps<S: Seat + Send, W: Watch>(seats: &mut [S], case: Case, length: Duration, seed: u64) -> (Vec<Lap>, Option<Duration>) {
    let (course, places) = (&Course::new(seats.len()), &processors::allowed());
    let names: &Vec<AtomicU64> = &seats.iter().map(|_| AtomicU64::new(0)).collect();
    thread::scope(|scope| {
        let start = |(thread, seat)| {
            scope.spawn(move || {
                processors::place(if case.aside == Some(Aside::Crowded) { &places[..Aside::PROCESSORS] } else { &places[thread..=thread] });
                names[thread].store(signals::own(), SeqCst);
                lap::<S, W>(seat, case.workload, Random::of(seed, thread as u64), course)
            })
        };
        let threads: Vec<_> = seats.iter_mut().enumerate().map(start).collect();
        course.wait();
        match case.aside {
            Some(Aside::Suspended) => signals::suspend_in_turn(&names.iter().map(|name| name.load(SeqCst)).collect::<Vec<_>>(), length),
            Some(Aside::Crowded) | None => thread::sleep(length),
        }
        let end = course.end();
        let laps: Vec<Lap> = threads.into_iter().map(|thread| thread.join().expect("no thread panics")).collect();
        let time = time(&laps, end);
        (laps, time)
    })
}

/// The time from when the last thread began, if all began within a tenth of it.
fn time(laps: &[Lap], end: Instant) -> Option<Duration> {
    let came = laps.iter().map(|lap| lap.came).max()?;
    let first = laps.iter().map(|lap| lap.began).min()?;
    let last = laps.iter().map(|lap| lap.began).max()?;
    assert!(first >= came, "a thread began before all had come");
    let time = end.saturating_duration_since(last);
    (last - first < time / 10).then_some(time)
}

/// Asks for all members.
const EVERYTHING: Query = Query::Range(0, KEYS);

fn size<E: Engine>(engine: &mut E) -> i64 {
    match engine.seats(1)[0].ask(&EVERYTHING) {
        Answer::Range(span) => span.count.into(),
        other => panic!("{} answered a range with {other:?}", E::NAME),
    }
}

impl<E: Engine> Runner for E {
    fn fill(&mut self, without: Option<u32>) {
        let seat = &mut self.seats(1)[0];
        for key in (0..KEYS).step_by(2).filter(|&key| Some(key) != without) {
            seat.update(Update::Insert(key));
        }
    }

    fn answers(&mut self, workload: Workload, count: u64) -> Vec<Answer> {
        let mut random = Random::of(0, 0);
        let drawn = (0..count).map(|number| workload.draw(number, &mut random)).chain([Operation::Query(EVERYTHING)]);
        let seat = &mut self.seats(1)[0];
        let answer = |operation| match operation {
            Operation::Update(update) => Answer::Update(seat.update(update)),
            Operation::Query(query) => seat.ask(&query),
        };
        drawn.map(answer).collect()
    }

    fn slice(&mut self, case: Case, length: Duration, pass: u64) -> Slice {
        let (mut want, mut turn) = (size(self), 0);
        loop {
            let laps = if case.aside.is_some() { laps::<_, Stopwatch> } else { laps::<_, Blind> };
            let (laps, time) = laps(&mut self.seats(case.threads), case, length * (1 << turn), pass << 32 | turn);
            want += laps.iter().map(|lap| lap.growth).sum::<i64>();
            assert_eq!(size(self), want, "the set of {} does not have the size that its answers tell", E::NAME);
            let operations = laps.iter().map(|lap| lap.operations).sum();
            if let Some(time) = time.filter(|_| operations > 0) {
                let mut calls = Box::<Apart<Calls>>::default();
                laps.iter().for_each(|lap| calls.0.add_all(&lap.calls.0));
                return Slice { operations, time, engine: E::NAME, seat: laps[0].seat, calls };
            }
            turn += 1;
        }
    }
}

//! Both sides timed on the same load, in turn.
use crate::agree::{agree, Agreed};
use crate::contest::Contest;
use crate::sides::{ORDINARY, SIDES};
use bench::figures::{spread, Spread};
use bench::load::{Call, Load, Rooms};
use bench::side::{Outcome, Side};
use std::time::{Duration, Instant};

/// How many tables a load has.
const TABLES: usize = 50;
/// A repetition of either side takes this long or longer, so that reading the clock does not matter.
pub const LEAST: Duration = Duration::from_millis(2);

/// What a repetition took, and the sum of what its calls gave.
#[derive(Default)]
struct Repetition {
    time: Duration,
    passes: u64,
    sum: Outcome,
}

/// A load with what is needed to run it again and again.
struct Bout<'a> {
    call: Call,
    load: &'a Load,
    tables: Vec<Vec<u32>>,
    rooms: Rooms,
}

impl<'a> Bout<'a> {
    /// A load with tables of its own, which stand where a pass starts.
    fn new(call: Call, load: &'a Load) -> Bout<'a> {
        Bout { call, load, tables: load.tables.clone(), rooms: Rooms::new() }
    }

    /// Puts the tables back to where a pass starts; calls that only read them leave them there.
    fn restore(&mut self) {
        if matches!(self.call, Call::Step | Call::Advance | Call::Run) {
            for (now, before) in self.tables.iter_mut().zip(&self.load.tables) {
                now.copy_from_slice(before);
            }
        }
    }

    /// Passes until they have taken long enough. Putting back the tables and summing up the answers of a run are not timed.
    fn repetition(&mut self, side: &Side) -> Repetition {
        let calls = self.load.calls(self.call);
        let mut done = Repetition::default();
        while done.time < LEAST {
            self.restore();
            let start = Instant::now();
            let sum = self.load.pass(calls, self.call, side, &mut self.tables, &mut self.rooms);
            done.time += start.elapsed();
            done.passes += 1;
            done.sum = done.sum.wrapping_add(sum).wrapping_add(self.rooms.answered());
        }
        done
    }

    /// Nanoseconds for a call.
    fn share(&self, done: &Repetition) -> f64 {
        done.time.as_nanos() as f64 / done.passes as f64 / self.load.calls(self.call) as f64
    }
}

/// What came of a contest, in nanoseconds for a call.
pub struct Report {
    pub contest: Contest,
    pub calls: usize,
    pub agreed: Agreed,
    pub proved: Spread,
    pub ordinary: Spread,
    /// Of the ratios of two repetitions, one of each side, that ran next to each other.
    pub ratio: Spread,
    /// Of the outcomes of all calls that were timed.
    pub sum: Outcome,
}

/// One repetition of each side, in nanoseconds for a call; who is first changes, so that neither always finds the caches as the other left
/// them. None where a side does not answer as it did when it was compared.
fn pair(bout: &mut Bout, agreed: &Agreed, proved_first: bool) -> Option<([f64; 2], Outcome)> {
    let order = if proved_first { [0, 1] } else { [1, 0] };
    let mut times = [0.0; 2];
    let mut sum: Outcome = 0;
    for side in order {
        let done = bout.repetition(SIDES[side]);
        if done.sum != agreed.sum.wrapping_mul(done.passes) {
            return None;
        }
        times[side] = bout.share(&done);
        sum = sum.wrapping_add(done.sum);
    }
    Some((times, sum))
}

/// Times a contest; else says what is wrong. One contest is finished before the next begins: coming back to it each time would let whoever is
/// first pay for bringing its load into the caches.
pub fn time(contest: Contest, seed: u64, repetitions: u32) -> Result<Report, String> {
    let load = contest.load(seed, TABLES)?;
    let agreed = agree(&contest, &load)?;
    let mut bout = Bout::new(contest.call, &load);
    let mut pairs = Vec::new();
    for repetition in 0..=repetitions {
        let pair = pair(&mut bout, &agreed, repetition % 2 == 0);
        pairs
            .push(pair.ok_or_else(|| format!("{}: a timed pass answers as the compared one did not", contest.name()))?);
    }
    let warm = &pairs[1..];
    let column = |side: usize| spread(warm.iter().map(|(times, _)| times[side]).collect());
    Ok(Report {
        contest,
        calls: load.calls(contest.call),
        agreed,
        proved: column(0),
        ordinary: column(1),
        ratio: spread(warm.iter().map(|(times, _)| times[0] / times[1]).collect()),
        sum: pairs.iter().fold(0, |sum, (_, of_pair)| sum.wrapping_add(*of_pair)),
    })
}

/// What the loop around the calls and the call through a pointer take, for requests to the step: it is in the figures of both sides.
pub fn around(contest: Contest, seed: u64, repetitions: u32) -> Result<Spread, String> {
    let load = contest.load(seed, TABLES)?;
    let mut bout = Bout::new(contest.call, &load);
    let one = |_| {
        let done = bout.repetition(&IDLE);
        bout.share(&done)
    };
    Ok(spread((0..repetitions).map(one).collect()))
}

/// A call that costs no more than being called.
#[inline(never)]
fn idle(_tables: &mut [u32], _request: &[u32]) -> Outcome {
    0
}

/// Does nothing when it is called with a request.
static IDLE: Side = Side { name: "idle", step: idle, advance: idle, ..ORDINARY };

//! The checking and the timing of a row.

use crate::programs::{Program, library, programs, reference};
use crate::rows::Row;
use crate::setting::Setting;
use reference::corpus::case::Case;
use std::hint::black_box;
use std::time::{Duration, Instant};

/// Rounds before the first that counts.
const WARM_UP: usize = 3;

/// The least number of rounds that count.
const ROUNDS: usize = 31;

/// The least time that the rounds of a row take.
const LEAST: Duration = Duration::from_millis(500);

/// The least number of records that a program goes through in a round, in as many calls as that
/// takes.
const RECORDS: usize = 10_000;

/// The times of a program, in nanoseconds per record.
#[derive(Clone, Copy)]
pub struct Times {
    pub best: f64,
    pub median: f64,
}

/// What was measured of a row of so many records: its programs, the library first; and where a
/// setting is on, the library with it off and on.
pub struct Figures {
    pub records: usize,
    pub programs: Vec<Times>,
    pub settings: Option<(Setting, [Times; 2])>,
}

/// The case of a row, after every program has been seen to do on it as the reference does; where a
/// setting is on, also with it off.
pub fn checked(row: &Row, records: usize) -> Case {
    let mut case = (row.case)(records);
    check(&row.name, &case);
    if let Some(setting) = row.setting {
        setting.turn(&mut case);
        check(&row.name, &case);
        setting.turn(&mut case);
    }
    case
}

/// Every program does as the reference does, which accepts the case.
fn check(name: &str, case: &Case) {
    let mut want = case.clone();
    let answer = reference(&mut want);
    assert!(answer.is_ok(), "{name}: {answer:?}");
    for program in programs(case.call) {
        let mut got = case.clone();
        assert_eq!(program(&mut got), answer, "{name}");
        assert!(got == want, "{name}: buffers differ");
    }
}

/// Measures a row: its programs by turns, then the setting off and on by turns, all on the same
/// buffers.
pub fn measured(row: &Row, records: usize) -> Figures {
    let mut case = checked(row, records);
    let programs = programs(case.call);
    let calls = (RECORDS / records).max(1);
    let times =
        by_turns(programs.len(), calls * records, |which| timed(programs[which], calls, &mut case));
    let settings = row.setting.map(|setting| {
        let mut on = 1;
        let times = by_turns(2, calls * records, |which| {
            if which != on {
                setting.turn(&mut case);
                on = which;
            }
            timed(library, calls, &mut case)
        });
        (setting, [times[0], times[1]])
    });
    Figures { records, programs: times, settings }
}

/// The times of so many, by turns: each goes through so many records once a round, in changing order.
fn by_turns(number: usize, records: usize, mut run: impl FnMut(usize) -> Duration) -> Vec<Times> {
    let mut spent = vec![Vec::new(); number];
    let (begin, mut round) = (Instant::now(), 0);
    while round < WARM_UP + ROUNDS || begin.elapsed() < LEAST {
        for which in order(round, number) {
            let time = run(which);
            if round >= WARM_UP {
                spent[which].push(time);
            }
        }
        round += 1;
    }
    spent.into_iter().map(|times| summed_up(times, records)).collect()
}

/// The order of a round: each has each place, and they come in both directions.
fn order(round: usize, number: usize) -> impl Iterator<Item = usize> {
    let back = round / number % 2 == 1;
    (0..number).map(move |index| {
        let index = if back { number - 1 - index } else { index };
        (index + round) % number
    })
}

/// The time of so many calls.
fn timed(program: Program, calls: usize, case: &mut Case) -> Duration {
    let begin = Instant::now();
    for _ in 0..calls {
        black_box(black_box(program)(black_box(case))).ok();
    }
    begin.elapsed()
}

/// The best time and the median, per record.
fn summed_up(mut times: Vec<Duration>, records: usize) -> Times {
    times.sort();
    let per_record = |time: Duration| time.as_nanos() as f64 / records as f64;
    Times { best: per_record(times[0]), median: per_record(times[times.len() / 2]) }
}

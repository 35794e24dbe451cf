//! Times `from_unix_seconds` and `unix_seconds` beside the Rust's, which come from the file extended.rs
//! of uutils/parse_datetime, unchanged; the build gives its path in the variable EXTENDED_RS.
//!
//! Every candidate is a function of one C shape that is called by pointer, on the same inputs and by
//! the same loop. The candidates take turns within each round, and the least time of all rounds counts.
//!
//! Our `unix_seconds` takes any record and tests it as `new` does. The Rust's tests nothing, since its
//! records come from `new`; so it is timed twice, behind `new`, which is the same promise as ours,
//! and alone.

use std::hint::black_box;
use std::time::Instant;

/// What extended.rs takes from the root of its crate.
pub const GNU_MAX_YEAR: u32 = 2_147_485_547;

#[allow(dead_code)]
mod extended {
    include!(env!("EXTENDED_RS"));
}

use extended::{DateParts, ExtendedDateTime, TimeParts};

#[repr(C)]
#[derive(Clone, Copy, Debug, PartialEq, Eq)]
pub struct Record {
    year: u32,
    month: u8,
    day: u8,
    hour: u8,
    minute: u8,
    second: u8,
    nanosecond: u32,
    offset_seconds: i32,
}

#[repr(C)]
#[derive(Clone, Copy, Debug, PartialEq, Eq)]
pub struct Answer {
    number: u32,
    place: u32,
    record: Record,
}

#[repr(C)]
#[derive(Clone, Copy, Debug, PartialEq, Eq)]
pub struct Moment {
    number: u32,
    seconds: i64,
}

extern "C" {
    fn seqtullo_from_unix_seconds(
        unix_seconds: i64,
        nanosecond: u32,
        offset_seconds: i32,
    ) -> Answer;
    fn seqtullo_unix_seconds(record: Record) -> Moment;
}

// ---- the Rust's functions in the same C shapes
//
// All inputs are accepted, so which number a refusal has costs nothing here.

const REFUSED: Answer = Answer {
    number: 1,
    place: 0,
    record: Record {
        year: 0,
        month: 0,
        day: 0,
        hour: 0,
        minute: 0,
        second: 0,
        nanosecond: 0,
        offset_seconds: 0,
    },
};

#[inline(never)]
extern "C" fn rust_from_unix_seconds(
    unix_seconds: i64,
    nanosecond: u32,
    offset_seconds: i32,
) -> Answer {
    match ExtendedDateTime::from_unix_seconds(unix_seconds, nanosecond, offset_seconds) {
        Ok(e) => Answer {
            number: 0,
            place: 0,
            record: Record {
                year: e.year,
                month: e.month,
                day: e.day,
                hour: e.hour,
                minute: e.minute,
                second: e.second,
                nanosecond: e.nanosecond,
                offset_seconds: e.offset_seconds,
            },
        },
        Err(_) => REFUSED,
    }
}

#[inline(never)]
extern "C" fn rust_new_and_unix_seconds(r: Record) -> Moment {
    let date = DateParts {
        year: r.year,
        month: r.month,
        day: r.day,
    };
    let time = TimeParts {
        hour: r.hour,
        minute: r.minute,
        second: r.second,
        nanosecond: r.nanosecond,
    };
    match ExtendedDateTime::new(date, time, r.offset_seconds) {
        Ok(e) => Moment {
            number: 0,
            seconds: e.unix_seconds(),
        },
        Err(_) => Moment {
            number: 1,
            seconds: 0,
        },
    }
}

#[inline(never)]
extern "C" fn rust_unix_seconds(r: Record) -> Moment {
    let e = ExtendedDateTime {
        year: r.year,
        month: r.month,
        day: r.day,
        hour: r.hour,
        minute: r.minute,
        second: r.second,
        nanosecond: r.nanosecond,
        offset_seconds: r.offset_seconds,
    };
    Moment {
        number: 0,
        seconds: e.unix_seconds(),
    }
}

// ---- inputs

const INPUTS: usize = 1 << 16;

type Call = (i64, u32, i32);

/// Moments from `first` to before `end` that look random and are the same in every run (xorshift64),
/// each with a nanosecond and an offset of whole half hours.
fn calls(first: i64, end: i64) -> Vec<Call> {
    let mut state: u64 = 88_172_645_463_325_252;
    let mut next = move || {
        state ^= state << 13;
        state ^= state >> 7;
        state ^= state << 17;
        state
    };
    let mut call = || {
        let unix = first + (next() % (end - first) as u64) as i64;
        let nanosecond = (next() % 1_000_000_000) as u32;
        let offset = ((next() % 97) as i32 - 48) * 1800;
        (unix, nanosecond, offset)
    };
    (0..INPUTS).map(|_| call()).collect()
}

// ---- timing

const ROUNDS: usize = 40;
const PASSES: usize = 10;

/// The least time of a call in nanoseconds, for each candidate.
fn least_times<F: Copy, I>(
    candidates: &[F],
    inputs: &[I],
    call: impl Fn(F, &I) -> i64,
) -> Vec<f64> {
    let mut least = vec![f64::INFINITY; candidates.len()];
    for _ in 0..ROUNDS {
        for (candidate, least) in candidates.iter().zip(&mut least) {
            let candidate = black_box(*candidate);
            let start = Instant::now();
            let mut sum = 0i64;
            for _ in 0..PASSES {
                for input in inputs {
                    sum = sum.wrapping_add(call(candidate, black_box(input)));
                }
            }
            let calls = (PASSES * inputs.len()) as f64;
            *least = least.min(start.elapsed().as_secs_f64() * 1e9 / calls);
            black_box(sum);
        }
    }
    least
}

fn time_from_unix_seconds(name: &str, calls: &[Call]) {
    type Candidate = unsafe extern "C" fn(i64, u32, i32) -> Answer;
    let candidates: [Candidate; 2] = [seqtullo_from_unix_seconds, rust_from_unix_seconds];
    // SAFETY: the archive's functions are proved for all arguments, and the types above are theirs.
    let made = |f: Candidate, call: &Call| unsafe { f(call.0, call.1, call.2) };
    for call in calls {
        let ours = made(candidates[0], call);
        assert!(
            ours.number == 0 && ours == made(candidates[1], call),
            "{call:?}"
        );
    }
    let times = least_times(&candidates, calls, |f, call| {
        i64::from(made(f, call).record.day)
    });
    println!("from_unix_seconds, {name}");
    print_times(&["ours", "the Rust's"], &times);
}

fn time_unix_seconds(name: &str, calls: &[Call]) {
    type Candidate = unsafe extern "C" fn(Record) -> Moment;
    let candidates: [Candidate; 3] = [
        seqtullo_unix_seconds,
        rust_new_and_unix_seconds,
        rust_unix_seconds,
    ];
    let records: Vec<Record> = calls
        .iter()
        .map(|call| rust_from_unix_seconds(call.0, call.1, call.2).record)
        .collect();
    // SAFETY: as above.
    let seconds = |f: Candidate, record: &Record| unsafe { f(*record) };
    for (record, call) in records.iter().zip(calls) {
        let expected = Moment {
            number: 0,
            seconds: call.0,
        };
        for candidate in candidates {
            assert!(seconds(candidate, record) == expected, "{call:?}");
        }
    }
    let times = least_times(&candidates, &records, |f, record| {
        seconds(f, record).seconds
    });
    println!("unix_seconds, {name}");
    print_times(
        &["ours", "the Rust's behind new", "the Rust's alone"],
        &times,
    );
}

/// The first candidate is ours; each other one is what ours is divided by.
fn print_times(names: &[&str], times: &[f64]) {
    println!("  {:<22} {:6.2} ns", names[0], times[0]);
    for (name, time) in names.iter().zip(times).skip(1) {
        println!("  {name:<22} {time:6.2} ns   ratio {:.2}", times[0] / time);
    }
}

fn main() {
    let all_years = "years 0 to 2147485547";
    for (name, first, end) in [
        ("years 1900 to 2099", -2_208_988_800, 4_102_444_800),
        // Two days off each end, so that every offset is accepted.
        (all_years, -62_167_046_400, 67_768_036_191_504_000),
    ] {
        let calls = calls(first, end);
        time_from_unix_seconds(name, &calls);
        time_unix_seconds(name, &calls);
    }
}

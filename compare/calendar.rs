//! Compares Seqtullo's calendar with the Rust that it follows.
//!
//! The Rust is the file extended.rs of uutils/parse_datetime, unchanged; the build gives its path in
//! the variable EXTENDED_RS. Ours is the static library `libseqtullo.a`, called through its C
//! functions. Every call is made on both sides, and the two replies must be equal in every number.
//!
//! The expected reply comes from the Rust alone. Its texts become the numbers of the table of
//! answers. A lent record is first given to the Rust's `new`, and where that refuses it, `new`'s number is
//! the reply; the Rust itself computes on with such a record, so it is called too, but its result is
//! dropped. A refusal carries place 0 and the blank record, or 0 where a number was wanted.
//!
//! This file is compiled with overflow checks: a sum of the Rust's that wrapped would end the program.
//!
//! Without arguments the program compares. With `--sample DIR` it calls no function of ours, and
//! writes a list of calls to DIR/stdin and the Rust's replies to DIR/stdout.

use std::fmt;
use std::hint::black_box;
use std::io::{BufWriter, Write};
use std::process::ExitCode;

/// What extended.rs takes from the root of its crate.
pub const GNU_MAX_YEAR: u32 = 2_147_485_547;

#[allow(dead_code)]
mod extended {
    include!(env!("EXTENDED_RS"));
}

use extended::{DateParts, ExtendedDateTime, TimeParts};

// ---- the types of the library's header

#[repr(C)]
#[derive(Clone, Copy, Debug, PartialEq, Eq)]
pub struct Record {
    year: u32,
    month: u8,
    day: u8,
    hour: u8,
    minute: u8,
    second: u8,
    nanosecond: u32,
    offset_seconds: i32,
}

#[repr(C)]
#[derive(Clone, Copy, Debug, PartialEq, Eq)]
pub struct Answer {
    number: u32,
    place: u32,
    record: Record,
}

#[repr(C)]
#[derive(Clone, Copy, Debug, PartialEq, Eq)]
pub struct Moment {
    number: u32,
    seconds: i64,
}

#[repr(C)]
#[derive(Clone, Copy, Debug, PartialEq, Eq)]
pub struct Number {
    number: u32,
    value: u32,
}

const BLANK: Record = Record {
    year: 0,
    month: 0,
    day: 0,
    hour: 0,
    minute: 0,
    second: 0,
    nanosecond: 0,
    offset_seconds: 0,
};

// ---- a call and its reply

#[derive(Clone, Copy)]
enum Call {
    New(Record),
    FromUnixSeconds(i64, u32, i32),
    UnixSeconds(Record),
    AddDays(Record, i64),
    AddHours(Record, i64),
    AddMinutes(Record, i64),
    AddSeconds(Record, i64, u32),
    AddYears(Record, i32),
    AddMonths(Record, i32),
    Weekday(Record),
    DayOfYear(Record),
    DaysInMonth(u32, u8),
    // Hosts can't call these: they stand in the sample only.
    WithDate(Record, u32, u8, u8),
    WithTime(Record, u8, u8, u8, u32),
    WithOffset(Record, i32),
    WeekdaySunday0(Record),
    IsLeapYear(u32),
}

/// The names in the order of `Call`: the host's functions without `seqtullo_`, then the others.
const NAMES: [&str; 17] = [
    "new",
    "from_unix_seconds",
    "unix_seconds",
    "add_days",
    "add_hours",
    "add_minutes",
    "add_seconds",
    "add_years",
    "add_months",
    "weekday",
    "day_of_year",
    "days_in_month",
    "with_date",
    "with_time",
    "with_offset",
    "weekday_sunday0",
    "is_leap_year",
];

/// How many of the names hosts can call.
const HOST_FUNCTIONS: usize = 12;

impl Call {
    /// The place in `NAMES`.
    fn function(&self) -> usize {
        match self {
            Call::New(..) => 0,
            Call::FromUnixSeconds(..) => 1,
            Call::UnixSeconds(..) => 2,
            Call::AddDays(..) => 3,
            Call::AddHours(..) => 4,
            Call::AddMinutes(..) => 5,
            Call::AddSeconds(..) => 6,
            Call::AddYears(..) => 7,
            Call::AddMonths(..) => 8,
            Call::Weekday(..) => 9,
            Call::DayOfYear(..) => 10,
            Call::DaysInMonth(..) => 11,
            Call::WithDate(..) => 12,
            Call::WithTime(..) => 13,
            Call::WithOffset(..) => 14,
            Call::WeekdaySunday0(..) => 15,
            Call::IsLeapYear(..) => 16,
        }
    }
}

#[derive(Clone, Copy, PartialEq, Eq)]
enum Reply {
    Record(Answer),
    Seconds(Moment),
    Count(Number),
    Plain(u8),
}

impl Reply {
    /// The number of the table of answers; a plain number is never a refusal.
    fn number(&self) -> u32 {
        match self {
            Reply::Record(answer) => answer.number,
            Reply::Seconds(moment) => moment.number,
            Reply::Count(count) => count.number,
            Reply::Plain(_) => 0,
        }
    }
}

// Both are written as decimal numbers with single spaces, a record as its eight numbers in order.

impl fmt::Display for Record {
    fn fmt(&self, f: &mut fmt::Formatter<'_>) -> fmt::Result {
        let Record {
            year,
            month,
            day,
            hour,
            minute,
            second,
            nanosecond,
            offset_seconds,
        } = self;
        write!(
            f,
            "{year} {month} {day} {hour} {minute} {second} {nanosecond} {offset_seconds}"
        )
    }
}

impl fmt::Display for Call {
    fn fmt(&self, f: &mut fmt::Formatter<'_>) -> fmt::Result {
        write!(f, "{} ", NAMES[self.function()])?;
        match self {
            Call::New(r)
            | Call::UnixSeconds(r)
            | Call::Weekday(r)
            | Call::DayOfYear(r)
            | Call::WeekdaySunday0(r) => write!(f, "{r}"),
            Call::FromUnixSeconds(unix, nanosecond, offset) => {
                write!(f, "{unix} {nanosecond} {offset}")
            }
            Call::AddDays(r, n) | Call::AddHours(r, n) | Call::AddMinutes(r, n) => {
                write!(f, "{r} {n}")
            }
            Call::AddSeconds(r, seconds, nanoseconds) => write!(f, "{r} {seconds} {nanoseconds}"),
            Call::AddYears(r, n) | Call::AddMonths(r, n) | Call::WithOffset(r, n) => {
                write!(f, "{r} {n}")
            }
            Call::DaysInMonth(year, month) => write!(f, "{year} {month}"),
            Call::WithDate(r, year, month, day) => write!(f, "{r} {year} {month} {day}"),
            Call::WithTime(r, hour, minute, second, nanosecond) => {
                write!(f, "{r} {hour} {minute} {second} {nanosecond}")
            }
            Call::IsLeapYear(year) => write!(f, "{year}"),
        }
    }
}

impl fmt::Display for Reply {
    fn fmt(&self, f: &mut fmt::Formatter<'_>) -> fmt::Result {
        match self {
            Reply::Record(Answer {
                number,
                place,
                record,
            }) => write!(f, "{number} {place} {record}"),
            Reply::Seconds(Moment { number, seconds }) => write!(f, "{number} {seconds}"),
            Reply::Count(Number { number, value }) => write!(f, "{number} {value}"),
            Reply::Plain(value) => write!(f, "{value}"),
        }
    }
}

// ---- ours

mod library {
    use super::{Answer, Moment, Number, Record};

    extern "C" {
        pub fn seqtullo_new(
            year: u32,
            month: u8,
            day: u8,
            hour: u8,
            minute: u8,
            second: u8,
            nanosecond: u32,
            offset_seconds: i32,
        ) -> Answer;
        pub fn seqtullo_from_unix_seconds(
            unix_seconds: i64,
            nanosecond: u32,
            offset_seconds: i32,
        ) -> Answer;
        pub fn seqtullo_unix_seconds(record: Record) -> Moment;
        pub fn seqtullo_add_days(record: Record, days: i64) -> Answer;
        pub fn seqtullo_add_hours(record: Record, hours: i64) -> Answer;
        pub fn seqtullo_add_minutes(record: Record, minutes: i64) -> Answer;
        pub fn seqtullo_add_seconds(record: Record, seconds: i64, nanoseconds: u32) -> Answer;
        pub fn seqtullo_add_years(record: Record, years: i32) -> Answer;
        pub fn seqtullo_add_months(record: Record, months: i32) -> Answer;
        pub fn seqtullo_weekday(record: Record) -> Number;
        pub fn seqtullo_day_of_year(record: Record) -> Number;
        pub fn seqtullo_days_in_month(year: u32, month: u8) -> u8;
    }
}

/// Our reply, or None for a function that hosts can't call.
fn ours(call: Call) -> Option<Reply> {
    use library::*;
    // SAFETY: the functions are proved for all arguments, and the types above are those of the library.
    let reply = unsafe {
        match call {
            Call::New(r) => Reply::Record(seqtullo_new(
                r.year,
                r.month,
                r.day,
                r.hour,
                r.minute,
                r.second,
                r.nanosecond,
                r.offset_seconds,
            )),
            Call::FromUnixSeconds(unix, nanosecond, offset) => {
                Reply::Record(seqtullo_from_unix_seconds(unix, nanosecond, offset))
            }
            Call::UnixSeconds(r) => Reply::Seconds(seqtullo_unix_seconds(r)),
            Call::AddDays(r, n) => Reply::Record(seqtullo_add_days(r, n)),
            Call::AddHours(r, n) => Reply::Record(seqtullo_add_hours(r, n)),
            Call::AddMinutes(r, n) => Reply::Record(seqtullo_add_minutes(r, n)),
            Call::AddSeconds(r, n, nanoseconds) => {
                Reply::Record(seqtullo_add_seconds(r, n, nanoseconds))
            }
            Call::AddYears(r, n) => Reply::Record(seqtullo_add_years(r, n)),
            Call::AddMonths(r, n) => Reply::Record(seqtullo_add_months(r, n)),
            Call::Weekday(r) => Reply::Count(seqtullo_weekday(r)),
            Call::DayOfYear(r) => Reply::Count(seqtullo_day_of_year(r)),
            Call::DaysInMonth(year, month) => Reply::Plain(seqtullo_days_in_month(year, month)),
            _ => return None,
        }
    };
    Some(reply)
}

// ---- the Rust's

/// The number of the table of answers for a text of the Rust's.
fn number_of(text: &str) -> u32 {
    match text {
        "year must be no greater than 2147485547" => 9,
        "year must be non-negative" => 10,
        "month must be between 1 and 12" => 11,
        "day is not valid for the given month" => 12,
        "hour must be between 0 and 23" => 13,
        "minute must be between 0 and 59" => 14,
        "second must be between 0 and 59" => 15,
        "nanosecond must be between 0 and 999999999" => 16,
        "offset must be between -24:00 and +24:00" => 17,
        "timestamp overflow"
        | "seconds overflow"
        | "nanosecond overflow"
        | "year overflow"
        | "month overflow" => 18,
        // "month is invalid" and "day is invalid" would be here: no call is known to give them.
        _ => panic!("the Rust gave a text that has no number: {text}"),
    }
}

type Made = Result<ExtendedDateTime, &'static str>;

fn answer(made: Made) -> Answer {
    match made {
        Ok(e) => Answer {
            number: 0,
            place: 0,
            record: Record {
                year: e.year,
                month: e.month,
                day: e.day,
                hour: e.hour,
                minute: e.minute,
                second: e.second,
                nanosecond: e.nanosecond,
                offset_seconds: e.offset_seconds,
            },
        },
        Err(text) => Answer {
            number: number_of(text),
            place: 0,
            record: BLANK,
        },
    }
}

fn made(r: Record) -> Made {
    ExtendedDateTime::new(
        DateParts {
            year: r.year,
            month: r.month,
            day: r.day,
        },
        TimeParts {
            hour: r.hour,
            minute: r.minute,
            second: r.second,
            nanosecond: r.nanosecond,
        },
        r.offset_seconds,
    )
}

/// What `new` answers for a record, 0 where it accepts it.
fn refusal(r: Record) -> u32 {
    made(r).map_or_else(number_of, |_| 0)
}

/// A record of the Rust's that `new` has not seen.
fn untested(r: Record) -> ExtendedDateTime {
    ExtendedDateTime {
        year: r.year,
        month: r.month,
        day: r.day,
        hour: r.hour,
        minute: r.minute,
        second: r.second,
        nanosecond: r.nanosecond,
        offset_seconds: r.offset_seconds,
    }
}

fn lent_record(r: Record, function: impl Fn(ExtendedDateTime) -> Made) -> Reply {
    let computed = black_box(function(untested(r)));
    Reply::Record(match refusal(r) {
        0 => answer(computed),
        number => Answer {
            number,
            place: 0,
            record: BLANK,
        },
    })
}

fn lent_count(r: Record, function: impl Fn(&ExtendedDateTime) -> u32) -> Reply {
    let value = black_box(function(&untested(r)));
    Reply::Count(match refusal(r) {
        0 => Number { number: 0, value },
        number => Number { number, value: 0 },
    })
}

fn expected(call: Call) -> Reply {
    match call {
        Call::New(r) => Reply::Record(answer(made(r))),
        Call::FromUnixSeconds(unix, nanosecond, offset) => Reply::Record(answer(
            ExtendedDateTime::from_unix_seconds(unix, nanosecond, offset),
        )),
        Call::UnixSeconds(r) => {
            let seconds = black_box(untested(r).unix_seconds());
            Reply::Seconds(match refusal(r) {
                0 => Moment { number: 0, seconds },
                number => Moment { number, seconds: 0 },
            })
        }
        Call::AddDays(r, n) => lent_record(r, |e| e.checked_add_days(n)),
        Call::AddHours(r, n) => lent_record(r, |e| e.checked_add_hours(n)),
        Call::AddMinutes(r, n) => lent_record(r, |e| e.checked_add_minutes(n)),
        Call::AddSeconds(r, n, nanoseconds) => {
            lent_record(r, |e| e.checked_add_seconds(n, nanoseconds))
        }
        Call::AddYears(r, n) => lent_record(r, |e| e.checked_add_years(n)),
        Call::AddMonths(r, n) => lent_record(r, |e| e.checked_add_months(n)),
        Call::Weekday(r) => lent_count(r, |e| e.weekday_monday0().into()),
        Call::DayOfYear(r) => lent_count(r, |e| e.day_of_year().into()),
        Call::DaysInMonth(year, month) => Reply::Plain(extended::days_in_month(year, month)),
        Call::WithDate(r, year, month, day) => lent_record(r, |e| e.with_date(year, month, day)),
        Call::WithTime(r, hour, minute, second, nanosecond) => {
            lent_record(r, |e| e.with_time(hour, minute, second, nanosecond))
        }
        Call::WithOffset(r, offset) => lent_record(r, |e| e.with_offset(offset)),
        Call::WeekdaySunday0(r) => lent_count(r, |e| e.weekday_sunday0().into()),
        Call::IsLeapYear(year) => Reply::Plain(extended::is_leap_year(year).into()),
    }
}

// ---- boundaries
//
// Lists are made in i128, so that a neighbour or a distance never overflows, and then cut to what
// the argument's type holds.

fn fitting<T: TryFrom<i128> + Ord>(values: impl IntoIterator<Item = i128>) -> Vec<T> {
    let mut list: Vec<T> = values
        .into_iter()
        .filter_map(|value| T::try_from(value).ok())
        .collect();
    list.sort();
    list.dedup();
    list
}

/// The values with their nearest neighbours.
fn near(values: &[i128]) -> Vec<i128> {
    values
        .iter()
        .flat_map(|value| [value - 1, *value, value + 1])
        .collect()
}

/// The values with their nearest neighbours, and the same below 0.
fn both_signs(values: &[i128]) -> Vec<i128> {
    near(values)
        .into_iter()
        .flat_map(|value| [value, -value])
        .collect()
}

/// The ends of all integer types.
fn type_ends() -> Vec<i128> {
    let powers = [7, 8, 15, 16, 31, 32, 63, 64].map(|bits| 1i128 << bits);
    let mut ends = both_signs(&powers);
    ends.extend([-1, 0, 1]);
    ends
}

fn years() -> Vec<u32> {
    let mut list = type_ends();
    list.extend(near(&[
        4,
        100,
        400,
        10_000,
        i128::from(GNU_MAX_YEAR),
        i128::from(u32::MAX),
    ]));
    list.extend(1899..=2101);
    // The last leap years that are accepted, and the last that 100 divides.
    list.extend(near(&[2_147_485_200, 2_147_485_500, 2_147_485_544]));
    fitting(list)
}

const KEY_YEARS: [u32; 22] = [
    0,
    1,
    4,
    99,
    100,
    399,
    400,
    1899,
    1900,
    1969,
    1970,
    2000,
    2023,
    2024,
    2100,
    9999,
    10_000,
    2_147_485_200,
    2_147_485_544,
    GNU_MAX_YEAR,
    GNU_MAX_YEAR + 1,
    u32::MAX,
];

const KEY_DAYS: [(u8, u8); 16] = [
    (1, 1),
    (1, 31),
    (2, 28),
    (2, 29),
    (3, 1),
    (3, 31),
    (4, 30),
    (10, 31),
    (12, 31),
    (0, 1),
    (1, 0),
    (1, 32),
    (2, 30),
    (4, 31),
    (13, 1),
    (255, 255),
];

fn months() -> Vec<u8> {
    fitting((0..=13).chain([255]))
}

fn days() -> Vec<u8> {
    fitting((0..=32).chain([255]))
}

/// The dates that meet all boundary clocks.
const GRID_DATES: [(u32, u8, u8); 5] = [
    (0, 1, 1),
    (2024, 2, 29),
    (2023, 2, 29),
    (GNU_MAX_YEAR, 12, 31),
    (GNU_MAX_YEAR + 1, 13, 0),
];

const HOURS: [u8; 7] = [0, 1, 22, 23, 24, 25, 255];
const SIXTIETHS: [u8; 7] = [0, 1, 58, 59, 60, 61, 255];

fn nanoseconds() -> Vec<u32> {
    let mut list = type_ends();
    list.extend(near(&[
        1_000_000_000,
        2_000_000_000,
        3_000_000_000,
        4_000_000_000,
    ]));
    fitting(list)
}

fn offsets() -> Vec<i32> {
    let mut list = type_ends();
    list.extend(both_signs(&[3600, 86_400]));
    fitting(list)
}

const KEY_CLOCKS: [(u8, u8, u8); 6] = [
    (0, 0, 0),
    (12, 34, 56),
    (23, 59, 59),
    (24, 0, 0),
    (0, 60, 0),
    (0, 0, 60),
];

/// A nanosecond and an offset.
const KEY_PLACES: [(u32, i32); 14] = [
    (0, 0),
    (0, 86_400),
    (0, -86_400),
    (1, 1),
    (1, -1),
    (500_000_000, 19_800),
    (999_999_999, 0),
    (999_999_999, 86_399),
    (999_999_999, -86_399),
    (1_000_000_000, 0),
    (0, 86_401),
    (0, -86_401),
    (u32::MAX, i32::MAX),
    (0, i32::MIN),
];

fn record(date: (u32, u8, u8), clock: (u8, u8, u8), place: (u32, i32)) -> Record {
    let ((year, month, day), (hour, minute, second), (nanosecond, offset_seconds)) =
        (date, clock, place);
    Record {
        year,
        month,
        day,
        hour,
        minute,
        second,
        nanosecond,
        offset_seconds,
    }
}

/// Every element of one list with every element of another.
fn pairs<A: Copy, B: Copy>(first: &[A], second: &[B]) -> Vec<(A, B)> {
    first
        .iter()
        .flat_map(|a| second.iter().map(|b| (*a, *b)))
        .collect()
}

/// All boundary dates with some clocks, and some dates with all boundary clocks.
fn grid(visit: &mut impl FnMut(Record)) {
    for (year, (month, day)) in pairs(&years(), &pairs(&months(), &days())) {
        for (clock, place) in KEY_CLOCKS.into_iter().zip(KEY_PLACES) {
            visit(record((year, month, day), clock, place));
        }
    }
    let clocks = pairs(&HOURS, &pairs(&SIXTIETHS, &SIXTIETHS));
    let places = pairs(&nanoseconds(), &offsets());
    for (date, (hour, (minute, second))) in pairs(&GRID_DATES, &clocks) {
        for &place in &places {
            visit(record(date, (hour, minute, second), place));
        }
    }
}

/// The records to which things are added: of the refused ones every seventh is enough.
fn key_records() -> Vec<Record> {
    let mut refused = 0;
    let mut list = Vec::new();
    for (year, (month, day)) in pairs(&KEY_YEARS, &KEY_DAYS) {
        for (clock, place) in pairs(&KEY_CLOCKS, &KEY_PLACES) {
            let r = record((year, month, day), clock, place);
            refused += u32::from(refusal(r) != 0);
            if refusal(r) == 0 || refused % 7 == 0 {
                list.push(r);
            }
        }
    }
    list
}

fn moment(r: Record) -> i128 {
    untested(r).unix_seconds().into()
}

/// The first second of a year at offset 0.
fn year_start(year: u32) -> i128 {
    moment(record((year, 1, 1), (0, 0, 0), (0, 0)))
}

/// The moments at which an answer's number changes at offset 0: the start of year 0, the end of the last
/// year, the end of the last year that a u32 holds, the ends of i64; and 1970-01-01.
fn turning_moments() -> [i128; 6] {
    let year_length = 366 * 86_400;
    [
        year_start(0),
        0,
        year_start(GNU_MAX_YEAR + 1),
        year_start(u32::MAX) + year_length - 86_400,
        i64::MIN.into(),
        i64::MAX.into(),
    ]
}

fn moments() -> Vec<i64> {
    let mut list = type_ends();
    for turn in turning_moments() {
        let steps = both_signs(&[0, 60, 3600, 86_400, 86_401, 172_800, 31_536_000]);
        list.extend(steps.into_iter().map(|step| turn + step));
    }
    for year in years() {
        for (month, day) in [(1, 1), (1, 31), (2, 28), (2, 29), (3, 1), (4, 30), (12, 31)] {
            list.extend(near(&[moment(record(
                (year, month, day),
                (0, 0, 0),
                (0, 0),
            ))]));
        }
    }
    fitting(list)
}

/// How many units to add to a record: small ones, the ends of types, the ends of the product, and
/// what leads to a turning moment.
fn unit_counts(r: Record, unit: i128) -> Vec<i64> {
    let mut list = type_ends();
    list.extend(both_signs(&[2, 24, 28, 31, 60, 365, 1461, 36_524, 146_097]));
    list.extend(both_signs(&[i128::from(i64::MAX) / unit]));
    for turn in turning_moments() {
        let distance = turn - moment(r);
        let local = distance - i128::from(r.offset_seconds);
        list.extend(near(&[distance.div_euclid(unit), local.div_euclid(unit)]));
    }
    fitting(list)
}

fn added_nanoseconds(r: Record) -> Vec<u32> {
    let own = i128::from(r.nanosecond);
    let mut list = near(&[1, 1_000_000_000, 2_000_000_000, u32::MAX.into()]);
    list.extend(near(&[
        1_000_000_000 - own,
        2_000_000_000 - own,
        (1 << 32) - own,
    ]));
    fitting(list)
}

fn year_counts(r: Record) -> Vec<i32> {
    let own = i128::from(r.year);
    let mut list = type_ends();
    list.extend(both_signs(&[2, 4, 100, 400]));
    list.extend(near(&[
        -own,
        i128::from(GNU_MAX_YEAR) - own,
        i128::from(u32::MAX) - own,
    ]));
    fitting(list)
}

fn month_counts(r: Record) -> Vec<i32> {
    let own = i128::from(r.year) * 12 + i128::from(r.month) - 1;
    let mut list = type_ends();
    list.extend(-14..=14);
    list.extend(both_signs(&[24, 48, 1200, 4800]));
    list.extend(near(&[-own, 12 * i128::from(GNU_MAX_YEAR) + 11 - own]));
    fitting(list)
}

type Visit<'a> = dyn FnMut(Call) + 'a;

fn boundary_calls(visit: &mut Visit) {
    grid(&mut |r| {
        visit(Call::New(r));
        visit(Call::UnixSeconds(r));
        visit(Call::Weekday(r));
        visit(Call::DayOfYear(r));
        visit(Call::WeekdaySunday0(r));
    });
    let places = pairs(&nanoseconds(), &offsets());
    for unix in moments() {
        for &(nanosecond, offset) in &places {
            visit(Call::FromUnixSeconds(unix, nanosecond, offset));
        }
    }
    for r in key_records() {
        boundary_sums(r, visit);
        boundary_changes(r, visit);
    }
    for year in (0..=10_000).chain(years()) {
        visit(Call::IsLeapYear(year));
        for month in months() {
            visit(Call::DaysInMonth(year, month));
        }
    }
}

fn boundary_sums(r: Record, visit: &mut Visit) {
    for days in unit_counts(r, 86_400) {
        visit(Call::AddDays(r, days));
    }
    for hours in unit_counts(r, 3600) {
        visit(Call::AddHours(r, hours));
    }
    for minutes in unit_counts(r, 60) {
        visit(Call::AddMinutes(r, minutes));
    }
    let nanoseconds = added_nanoseconds(r);
    for seconds in unit_counts(r, 1) {
        for &nanosecond in &nanoseconds {
            visit(Call::AddSeconds(r, seconds, nanosecond));
        }
    }
    for years in year_counts(r) {
        visit(Call::AddYears(r, years));
    }
    for months in month_counts(r) {
        visit(Call::AddMonths(r, months));
    }
}

fn boundary_changes(r: Record, visit: &mut Visit) {
    for (year, (month, day)) in pairs(&KEY_YEARS, &KEY_DAYS) {
        visit(Call::WithDate(r, year, month, day));
    }
    for ((hour, minute, second), (nanosecond, _)) in pairs(&KEY_CLOCKS, &KEY_PLACES) {
        visit(Call::WithTime(r, hour, minute, second, nanosecond));
    }
    for (_, offset) in KEY_PLACES {
        visit(Call::WithOffset(r, offset));
    }
}

/// Every day of three times 800 years, at its first and last second and at three offsets.
fn day_sweep(visit: &mut Visit) {
    for first in [0, 1600, GNU_MAX_YEAR - 799] {
        let start = year_start(first) as i64;
        for day in 0..2 * 146_097 {
            for (second, offset) in pairs(&[0, 86_399], &[0, 86_400, -86_400]) {
                let unix = start + day * 86_400 + second - i64::from(offset);
                there_and_back(Call::FromUnixSeconds(unix, 0, offset), visit);
            }
        }
    }
}

/// Every month that a u8 holds, in the years 0 to 10000.
fn month_sweep(visit: &mut Visit) {
    for year in 0..=10_000 {
        for month in 0..=255 {
            visit(Call::DaysInMonth(year, month));
        }
    }
}

/// A call of `from_unix_seconds`, and what is asked of the record that it gives.
fn there_and_back(call: Call, visit: &mut Visit) {
    visit(call);
    if let Reply::Record(Answer {
        number: 0, record, ..
    }) = expected(call)
    {
        visit(Call::UnixSeconds(record));
        visit(Call::Weekday(record));
        visit(Call::DayOfYear(record));
    }
}

// ---- random calls

/// Numbers that look random and are the same in every run (splitmix64).
struct Random(u64);

impl Random {
    fn next(&mut self) -> u64 {
        self.0 = self.0.wrapping_add(0x9e37_79b9_7f4a_7c15);
        let mut z = self.0;
        z = (z ^ (z >> 30)).wrapping_mul(0xbf58_476d_1ce4_e5b9);
        z = (z ^ (z >> 27)).wrapping_mul(0x94d0_49bb_1331_11eb);
        z ^ (z >> 31)
    }

    fn below(&mut self, end: u64) -> u64 {
        self.next() % end
    }

    /// A number of at most `bits` bits, each length being equally likely.
    fn sized(&mut self, bits: u32) -> u64 {
        match self.below(u64::from(bits) + 1) as u32 {
            0 => 0,
            length => self.next() >> (64 - length),
        }
    }

    fn signed(&mut self, bits: u32) -> i64 {
        let value = self.sized(bits - 1) as i64;
        if self.below(2) == 0 {
            value
        } else {
            !value
        }
    }

    fn nanosecond(&mut self) -> u32 {
        match self.below(4) {
            0 => self.sized(32) as u32,
            _ => self.below(1_000_000_000) as u32,
        }
    }

    fn offset(&mut self) -> i32 {
        match self.below(4) {
            0 => self.signed(32) as i32,
            _ => self.below(2 * 86_400 + 1) as i32 - 86_400,
        }
    }

    fn accepted(&mut self) -> Record {
        let year = (self.sized(32) % (u64::from(GNU_MAX_YEAR) + 1)) as u32;
        let month = 1 + self.below(12) as u8;
        let day = 1 + self.below(extended::days_in_month(year, month).into()) as u8;
        let clock = (
            self.below(24) as u8,
            self.below(60) as u8,
            self.below(60) as u8,
        );
        let place = (
            self.below(1_000_000_000) as u32,
            self.below(2 * 86_400 + 1) as i32 - 86_400,
        );
        record((year, month, day), clock, place)
    }

    fn any(&mut self) -> Record {
        let date = (
            self.sized(32) as u32,
            self.sized(8) as u8,
            self.sized(8) as u8,
        );
        let clock = (
            self.sized(8) as u8,
            self.sized(8) as u8,
            self.sized(8) as u8,
        );
        record(date, clock, (self.sized(32) as u32, self.signed(32) as i32))
    }

    /// An accepted record in which one number is replaced by any.
    fn spoiled(&mut self) -> Record {
        let (mut r, any) = (self.accepted(), self.any());
        match self.below(8) {
            0 => r.year = any.year,
            1 => r.month = any.month,
            2 => r.day = any.day,
            3 => r.hour = any.hour,
            4 => r.minute = any.minute,
            5 => r.second = any.second,
            6 => r.nanosecond = any.nanosecond,
            _ => r.offset_seconds = any.offset_seconds,
        }
        r
    }

    fn record(&mut self) -> Record {
        match self.below(8) {
            0 => self.any(),
            1 => self.spoiled(),
            _ => self.accepted(),
        }
    }
}

/// One call of every function.
fn random_calls(random: &mut Random, visit: &mut Visit) {
    let tested = if random.below(2) == 0 {
        random.spoiled()
    } else {
        random.any()
    };
    visit(Call::New(tested));
    visit(Call::FromUnixSeconds(
        random.signed(64),
        random.nanosecond(),
        random.offset(),
    ));
    visit(Call::UnixSeconds(random.record()));
    visit(Call::AddDays(random.record(), random.signed(64)));
    visit(Call::AddHours(random.record(), random.signed(64)));
    visit(Call::AddMinutes(random.record(), random.signed(64)));
    visit(Call::AddSeconds(
        random.record(),
        random.signed(64),
        random.sized(32) as u32,
    ));
    visit(Call::AddYears(random.record(), random.signed(32) as i32));
    visit(Call::AddMonths(random.record(), random.signed(32) as i32));
    visit(Call::Weekday(random.record()));
    visit(Call::DayOfYear(random.record()));
    visit(Call::DaysInMonth(
        random.sized(32) as u32,
        random.sized(8) as u8,
    ));
    let other = random.spoiled();
    visit(Call::WithDate(
        random.record(),
        other.year,
        other.month,
        other.day,
    ));
    visit(Call::WithTime(
        random.record(),
        other.hour,
        other.minute,
        other.second,
        other.nanosecond,
    ));
    visit(Call::WithOffset(random.record(), random.offset()));
    visit(Call::WeekdaySunday0(random.record()));
    visit(Call::IsLeapYear(random.sized(32) as u32));
}

/// The examples of docs/SCOPE.md, 'Thirteen examples'.
fn example_calls(visit: &mut Visit) {
    for (unix, offset) in [
        (0, 0),
        (-1, 0),
        (-62_167_219_200, 0),
        (-62_167_219_201, 0),
        (i64::MAX, 0),
        (i64::MAX, 1),
        (i64::MIN, 0),
        (i64::MIN, -1),
    ] {
        visit(Call::FromUnixSeconds(unix, 0, offset));
    }
    let midnight = |year, month, day| record((year, month, day), (0, 0, 0), (0, 0));
    visit(Call::Weekday(midnight(1970, 1, 1)));
    visit(Call::AddMonths(midnight(2023, 1, 31), 1));
    visit(Call::AddMonths(midnight(2024, 1, 31), 1));
    visit(Call::AddYears(midnight(2024, 2, 29), 1));
    let last = record((1970, 1, 1), (0, 0, 0), (999_999_999, 0));
    for nanoseconds in [
        0,
        1,
        1_000_000_000,
        1_000_000_001,
        3_294_967_296,
        3_294_967_297,
    ] {
        visit(Call::AddSeconds(last, 0, nanoseconds));
    }
}

// ---- comparing

/// The random calls of each function.
const RANDOM_ROUNDS: u64 = 5_000_000;

/// Differences beyond these are counted and not printed.
const PRINTED_DIFFERENCES: u64 = 20;

/// The numbers of the table of answers that the calendar gives, with 0 for a record.
const ANSWERS: [u32; 11] = [0, 9, 10, 11, 12, 13, 14, 15, 16, 17, 18];

struct Comparison {
    /// For each function how often the Rust's answer had each number.
    counts: [[u64; 19]; HOST_FUNCTIONS],
    differences: u64,
}

impl Comparison {
    fn compare(&mut self, call: Call) {
        let Some(ours) = ours(call) else {
            return;
        };
        let expected = expected(call);
        self.counts[call.function()][expected.number() as usize] += 1;
        if ours != expected {
            self.differences += 1;
            if self.differences <= PRINTED_DIFFERENCES {
                println!("difference: {call}\n  ours     {ours}\n  expected {expected}");
            }
        }
    }

    fn print(&self) {
        print!("{:<18}{:>11}", "function", "calls");
        for number in ANSWERS {
            print!("{number:>10}");
        }
        println!();
        let mut total = 0;
        for (name, counts) in NAMES.iter().zip(self.counts) {
            let calls: u64 = counts.iter().sum();
            total += calls;
            print!("{name:<18}{calls:>11}");
            for number in ANSWERS {
                print!("{:>10}", counts[number as usize]);
            }
            println!();
        }
        println!("{total} calls, {} differences", self.differences);
    }
}

fn compare() -> ExitCode {
    let mut comparison = Comparison {
        counts: [[0; 19]; HOST_FUNCTIONS],
        differences: 0,
    };
    let visit: &mut Visit = &mut |call| comparison.compare(call);
    example_calls(visit);
    boundary_calls(visit);
    day_sweep(visit);
    month_sweep(visit);
    let mut random = Random(1);
    for _ in 0..RANDOM_ROUNDS {
        random_calls(&mut random, visit);
    }
    comparison.print();
    ExitCode::from(u8::from(comparison.differences != 0))
}

// ---- the sample

/// How many calls of the boundaries are kept for each function and each number of its answers.
const KEPT_ACCEPTED: usize = 60;
const KEPT_REFUSED: usize = 12;

/// The random calls of each function.
const KEPT_ROUNDS: usize = 60;

/// The calls that had one function and one number, of which a random part is kept.
#[derive(Clone, Default)]
struct Kept {
    seen: u64,
    calls: Vec<(u64, Call)>,
}

impl Kept {
    fn offer(&mut self, call: Call, most: usize, random: &mut Random) {
        self.seen += 1;
        if self.calls.len() < most {
            self.calls.push((self.seen, call));
            return;
        }
        if let Some(slot) = self.calls.get_mut(random.below(self.seen) as usize) {
            *slot = (self.seen, call);
        }
    }
}

fn sampled_boundaries(random: &mut Random) -> Vec<Call> {
    let mut kept = vec![Kept::default(); NAMES.len() * 19];
    boundary_calls(&mut |call| {
        let number = expected(call).number() as usize;
        let most = if number == 0 {
            KEPT_ACCEPTED
        } else {
            KEPT_REFUSED
        };
        kept[call.function() * 19 + number].offer(call, most, random);
    });
    let mut list = Vec::new();
    for mut group in kept {
        group.calls.sort_by_key(|(seen, _)| *seen);
        list.extend(group.calls.into_iter().map(|(_, call)| call));
    }
    list
}

/// A reply as the sample has it: a refusal is its number alone, and no place is written.
fn short(reply: Reply) -> String {
    match reply {
        Reply::Record(Answer {
            number: 0, record, ..
        }) => format!("0 {record}"),
        Reply::Seconds(Moment { number: 0, seconds }) => format!("0 {seconds}"),
        Reply::Count(Number { number: 0, value }) => format!("0 {value}"),
        Reply::Plain(value) => value.to_string(),
        refused => refused.number().to_string(),
    }
}

fn write_sample(folder: &str) -> std::io::Result<()> {
    let mut random = Random(2);
    let mut list = Vec::new();
    example_calls(&mut |call| list.push(call));
    list.extend(sampled_boundaries(&mut random));
    for _ in 0..KEPT_ROUNDS {
        random_calls(&mut random, &mut |call| list.push(call));
    }
    let mut calls = BufWriter::new(std::fs::File::create(format!("{folder}/stdin"))?);
    let mut replies = BufWriter::new(std::fs::File::create(format!("{folder}/stdout"))?);
    for call in &list {
        writeln!(calls, "{call}")?;
        writeln!(replies, "{}", short(expected(*call)))?;
    }
    calls.flush()?;
    replies.flush()?;
    println!(
        "{} calls in {folder}/stdin, the Rust's replies in {folder}/stdout",
        list.len()
    );
    Ok(())
}

fn main() -> ExitCode {
    let words: Vec<String> = std::env::args().skip(1).collect();
    match words.iter().map(String::as_str).collect::<Vec<_>>()[..] {
        [] => compare(),
        ["--sample", folder] => match write_sample(folder) {
            Ok(()) => ExitCode::SUCCESS,
            Err(error) => {
                eprintln!("{folder}: {error}");
                ExitCode::from(2)
            }
        },
        _ => {
            eprintln!("arguments: none, or --sample DIR");
            ExitCode::from(2)
        }
    }
}

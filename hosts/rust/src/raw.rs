//! The C functions of the library, as in include/seqtullo.h. Every one takes any arguments.

use crate::{Deadline, Record};

#[repr(C)]
pub struct Answer {
    pub number: u32,
    pub place: u32,
    pub record: Record,
}

#[repr(C)]
pub struct Moment {
    pub number: u32,
    pub seconds: i64,
}

#[repr(C)]
pub struct Number {
    pub number: u32,
    pub value: u32,
}

#[repr(C)]
pub struct Written {
    pub number: u32,
    pub length: u32,
}

#[repr(C)]
pub struct BoardAnswer {
    pub number: u32,
    pub count: u32,
    pub next: Deadline,
}

extern "C" {
    pub fn seqtullo_read_text(text: *const u8, length: usize, base: Record) -> Answer;
    pub fn seqtullo_read_profile(text: *const u8, length: usize, base: Record) -> Answer;
    pub fn seqtullo_read_packet(packet: *const u8, length: usize, base: Record) -> Answer;
    pub fn seqtullo_write(record: Record, out: *mut u8, length: usize) -> Written;
    pub fn seqtullo_new(year: u32, month: u8, day: u8, hour: u8, minute: u8, second: u8, nanosecond: u32, offset_seconds: i32) -> Answer;
    pub fn seqtullo_from_unix_seconds(unix_seconds: i64, nanosecond: u32, offset_seconds: i32) -> Answer;
    pub fn seqtullo_unix_seconds(record: Record) -> Moment;
    pub fn seqtullo_add_days(record: Record, days: i64) -> Answer;
    pub fn seqtullo_add_hours(record: Record, hours: i64) -> Answer;
    pub fn seqtullo_add_minutes(record: Record, minutes: i64) -> Answer;
    pub fn seqtullo_add_seconds(record: Record, seconds: i64, nanoseconds: u32) -> Answer;
    pub fn seqtullo_add_years(record: Record, years: i32) -> Answer;
    pub fn seqtullo_add_months(record: Record, months: i32) -> Answer;
    pub fn seqtullo_weekday(record: Record) -> Number;
    pub fn seqtullo_day_of_year(record: Record) -> Number;
    pub fn seqtullo_days_in_month(year: u32, month: u8) -> u8;
    pub fn seqtullo_board_join(run: *mut Deadline, run_places: usize, count: usize, joining: Deadline) -> BoardAnswer;
    pub fn seqtullo_board_leave(run: *mut Deadline, run_places: usize, count: usize, id: u32) -> BoardAnswer;
    pub fn seqtullo_board_next(run: *const Deadline, run_places: usize, count: usize) -> BoardAnswer;
}

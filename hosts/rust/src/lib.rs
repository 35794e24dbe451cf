//! Dates for hosts that start and stop other people's programs, over the proved static library `libseqtullo.a`.
//!
//! ```
//! let base = seqtullo::Record::new(2024, 3, 13, 9, 30, 0, 0, 0)?;
//! let end = seqtullo::read_text("2024-01-31 +1 month", base)?;
//! assert_eq!(end.write()?.as_str(), "2024-03-02 00:00:00.000000000+00:00");
//!
//! let refusal = seqtullo::read_text("10:00 sept. 3", base).unwrap_err();
//! assert_eq!(refusal.to_string(), "unread at byte 5");
//! # Ok::<(), seqtullo::Refusal>(())
//! ```
//!
//! Partner hosts send dates of ISO 8601, week dates among them.
//!
//! ```
//! let base = seqtullo::Record::new(2024, 3, 13, 9, 30, 0, 0, 0)?;
//! let end = seqtullo::read_profile("2020-W53-5", base)?;
//! assert_eq!(end.write()?.as_str(), "2021-01-01 00:00:00.000000000+00:00");
//! # Ok::<(), seqtullo::Refusal>(())
//! ```
//!
//! Items that a host already has come as a packet. Weekdays, zones and pure numbers are read from packets alone.
//!
//! ```
//! use seqtullo::{Clock, Day, PacketBuilder, Record, Zone};
//!
//! let base = Record::new(2024, 3, 13, 9, 30, 0, 0, 0)?;
//! let mut packet = PacketBuilder::new();
//! packet.weekday(Day::Monday, 1).time(Clock::at(7, 5).offset(Zone::east(2, 0)));
//! let end = seqtullo::read_packet(packet.bytes(), base)?;
//! assert_eq!(end.write()?.as_str(), "2024-03-18 07:05:00.000000000+02:00");
//!
//! packet.local_zone();
//! let refusal = seqtullo::read_packet(packet.bytes(), base).unwrap_err();
//! assert_eq!(refusal.to_string(), "twice at item 2");
//! # Ok::<(), seqtullo::Refusal>(())
//! ```
//!
//! A board says which plug-in stops next.
//!
//! ```
//! use seqtullo::{Board, Deadline, Record, MAX_PLACES};
//!
//! let start = Record::new(2024, 3, 13, 9, 30, 0, 0, 0)?;
//! let mut run = [Deadline::default(); MAX_PLACES];
//! let mut board = Board::new(&mut run);
//! board.join(Deadline::at(7, start.add_hours(36)?)?)?;
//! let next = board.join(Deadline::at(8, start.add_minutes(90)?)?)?;
//! assert_eq!(next.map(|deadline| deadline.id), Some(8));
//!
//! let next = board.leave(8)?;
//! assert_eq!(next.map(|deadline| deadline.id), Some(7));
//! # Ok::<(), seqtullo::Refusal>(())
//! ```

mod board;
mod packet;
mod raw;

pub use board::{Board, BoardRefusal, Deadline, MAX_PLACES};
pub use packet::{Clock, Day, PacketBuilder, Unit, Zone};

use std::error::Error;
use std::fmt;

/// The release, as in the header and in CHANGELOG.md.
///
/// ```
/// assert_eq!(seqtullo::VERSION.split('.').count(), 3);
/// ```
pub const VERSION: &str = env!("CARGO_PKG_VERSION");

/// An upper bound on the stack that a call uses, in bytes: measured, not proved. A thread of 128 KiB starts with it unless its thread-local
/// variables take more than a few KiB.
///
/// ```
/// let base = seqtullo::Record::new(2024, 3, 13, 9, 30, 0, 0, 0)?;
/// let read = move || seqtullo::read_text("(".repeat(2045) + &")".repeat(2045) + "10:00", base);
/// let thread = std::thread::Builder::new().stack_size(128 * 1024).spawn(read).unwrap();
/// assert_eq!(thread.join().unwrap()?.hour, 10);
/// # Ok::<(), seqtullo::Refusal>(())
/// ```
pub const STACK: usize = 114_688;

/// A date and time at an offset, in seconds east of UTC. Its numbers may be any: every function tests them first.
#[repr(C)]
#[derive(Debug, Clone, Copy, PartialEq, Eq, Hash)]
pub struct Record {
    pub year: u32,
    pub month: u8,
    pub day: u8,
    pub hour: u8,
    pub minute: u8,
    pub second: u8,
    pub nanosecond: u32,
    pub offset_seconds: i32,
}

/// Why there is no answer: a number of the table of answers, and where.
#[derive(Debug, Clone, Copy, PartialEq, Eq, Hash)]
pub struct Refusal {
    pub number: u32,
    pub place: u32,
}

impl Refusal {
    /// The word of the table of answers.
    pub fn word(self) -> &'static str {
        const WORDS: [&str; 26] = [
            "accepted", "oversize", "foreign", "unread", "stopped", "packet", "twice", "rival", "pure", "over", "under", "month", "day",
            "hour", "minute", "second", "nanosecond", "offset", "sum", "short", "seam", "week", "fraction", "present", "full", "absent",
        ];
        WORDS.get(self.number as usize).copied().unwrap_or("unknown")
    }
}

impl fmt::Display for Refusal {
    fn fmt(&self, f: &mut fmt::Formatter<'_>) -> fmt::Result {
        match self.number {
            2..=4 | 22 => write!(f, "{} at byte {}", self.word(), self.place),
            5..=8 => write!(f, "{} at item {}", self.word(), self.place),
            _ => f.write_str(self.word()),
        }
    }
}

impl Error for Refusal {}

/// The text of a record: 35 to 41 bytes.
#[derive(Clone, Copy)]
pub struct Text {
    bytes: [u8; 41],
    length: usize,
}

impl Text {
    pub fn as_str(&self) -> &str {
        std::str::from_utf8(&self.bytes[..self.length]).unwrap_or_default()
    }
}

impl fmt::Display for Text {
    fn fmt(&self, f: &mut fmt::Formatter<'_>) -> fmt::Result {
        f.write_str(self.as_str())
    }
}

impl fmt::Debug for Text {
    fn fmt(&self, f: &mut fmt::Formatter<'_>) -> fmt::Result {
        fmt::Debug::fmt(self.as_str(), f)
    }
}

fn record(a: raw::Answer) -> Result<Record, Refusal> {
    match a.number {
        0 => Ok(a.record),
        number => Err(Refusal { number, place: a.place }),
    }
}

fn number(a: raw::Number) -> Result<u32, Refusal> {
    match a.number {
        0 => Ok(a.value),
        number => Err(Refusal { number, place: 0 }),
    }
}

/// Reads a text under a base: what the text leaves out is the base's. A fraction of a second may have any number of digits, but those after
/// the ninth must be zeros.
///
/// ```
/// let base = seqtullo::Record::new(2024, 3, 13, 9, 30, 0, 0, 0)?;
/// assert_eq!(seqtullo::read_text("10:00:05.123456789000", base)?.nanosecond, 123_456_789);
/// let refused = seqtullo::read_text("10:00 -1.123456789012 seconds", base).unwrap_err();
/// assert_eq!((refused.number, refused.word(), refused.place), (22, "fraction", 5));
/// # Ok::<(), seqtullo::Refusal>(())
/// ```
pub fn read_text(text: impl AsRef<[u8]>, base: Record) -> Result<Record, Refusal> {
    let text = text.as_ref();
    // The pointer and the length are those of one slice, which is only read.
    record(unsafe { raw::seqtullo_read_text(text.as_ptr(), text.len(), base) })
}

/// Reads a date as partner hosts exchange it, and nothing else: `YYYY-MM-DD` or the week date `YYYY-Www-D` of ISO 8601. The year has four digits
/// and the `W` is upper case; strip a line end first. The record is midnight of that day at the base's offset.
///
/// A refusal has, in the order of the tests, the base's number; 1; 2 at the first byte of 128 or more; 3 for a text of neither form; 11 or 12 for a
/// month or day that does not exist, or 21 for a week or its day. The base's number may be 11 or 12 too.
///
/// ```
/// let base = seqtullo::Record::new(2024, 3, 13, 9, 30, 0, 0, 0)?;
/// let end = seqtullo::read_profile("2020-W53-5", base)?;
/// assert_eq!(end.write()?.as_str(), "2021-01-01 00:00:00.000000000+00:00");
///
/// let refused = seqtullo::read_profile("2021-W53-5", base).unwrap_err();
/// assert_eq!((refused.number, refused.to_string().as_str()), (21, "week"));
/// let refused = seqtullo::read_profile("2020-w53-5", base).unwrap_err();
/// assert_eq!((refused.number, refused.to_string().as_str()), (3, "unread at byte 0"));
/// # Ok::<(), seqtullo::Refusal>(())
/// ```
pub fn read_profile(text: impl AsRef<[u8]>, base: Record) -> Result<Record, Refusal> {
    let text = text.as_ref();
    // The pointer and the length are those of one slice, which is only read.
    record(unsafe { raw::seqtullo_read_profile(text.as_ptr(), text.len(), base) })
}

/// Reads a packet under a base. [`PacketBuilder`] makes one.
pub fn read_packet(packet: impl AsRef<[u8]>, base: Record) -> Result<Record, Refusal> {
    let packet = packet.as_ref();
    // The pointer and the length are those of one slice, which is only read.
    record(unsafe { raw::seqtullo_read_packet(packet.as_ptr(), packet.len(), base) })
}

/// The days of a month, 0 for a month outside 1 to 12.
pub fn days_in_month(year: u32, month: u8) -> u8 {
    unsafe { raw::seqtullo_days_in_month(year, month) }
}

// The C functions that are called here take any numbers and keep nothing.
impl Record {
    #[allow(clippy::too_many_arguments)]
    pub fn new(year: u32, month: u8, day: u8, hour: u8, minute: u8, second: u8, nanosecond: u32, offset_seconds: i32) -> Result<Record, Refusal> {
        record(unsafe { raw::seqtullo_new(year, month, day, hour, minute, second, nanosecond, offset_seconds) })
    }

    /// The one record of a moment, a nanosecond and an offset.
    pub fn from_unix_seconds(unix_seconds: i64, nanosecond: u32, offset_seconds: i32) -> Result<Record, Refusal> {
        record(unsafe { raw::seqtullo_from_unix_seconds(unix_seconds, nanosecond, offset_seconds) })
    }

    /// Seconds from 1970-01-01 00:00:00 at offset 0.
    pub fn unix_seconds(self) -> Result<i64, Refusal> {
        let a = unsafe { raw::seqtullo_unix_seconds(self) };
        match a.number {
            0 => Ok(a.seconds),
            number => Err(Refusal { number, place: 0 }),
        }
    }

    /// The text of the record. Read under any accepted base, it gives the record again.
    pub fn write(self) -> Result<Text, Refusal> {
        let mut bytes = [0; 41];
        // The pointer and the length are those of one array.
        let a = unsafe { raw::seqtullo_write(self, bytes.as_mut_ptr(), bytes.len()) };
        match a.number {
            0 => Ok(Text { bytes, length: a.length as usize }),
            number => Err(Refusal { number, place: 0 }),
        }
    }

    pub fn add_days(self, days: i64) -> Result<Record, Refusal> {
        record(unsafe { raw::seqtullo_add_days(self, days) })
    }

    pub fn add_hours(self, hours: i64) -> Result<Record, Refusal> {
        record(unsafe { raw::seqtullo_add_hours(self, hours) })
    }

    pub fn add_minutes(self, minutes: i64) -> Result<Record, Refusal> {
        record(unsafe { raw::seqtullo_add_minutes(self, minutes) })
    }

    /// Seconds, and nanoseconds on top: at most one second is carried out of the nanoseconds.
    pub fn add_seconds(self, seconds: i64, nanoseconds: u32) -> Result<Record, Refusal> {
        record(unsafe { raw::seqtullo_add_seconds(self, seconds, nanoseconds) })
    }

    /// The same day of another year; from 29 February it is 1 March where the year has no 29 February.
    pub fn add_years(self, years: i32) -> Result<Record, Refusal> {
        record(unsafe { raw::seqtullo_add_years(self, years) })
    }

    /// The same day of another month. Where that has no such day: its last day, and the days that were cut off are added.
    pub fn add_months(self, months: i32) -> Result<Record, Refusal> {
        record(unsafe { raw::seqtullo_add_months(self, months) })
    }

    /// 0 for Monday to 6 for Sunday.
    pub fn weekday(self) -> Result<u32, Refusal> {
        number(unsafe { raw::seqtullo_weekday(self) })
    }

    pub fn day_of_year(self) -> Result<u32, Refusal> {
        number(unsafe { raw::seqtullo_day_of_year(self) })
    }
}

#[cfg(test)]
mod tests {
    use super::*;

    fn base() -> Record {
        Record::new(2024, 3, 13, 9, 30, 0, 0, 0).unwrap()
    }

    fn read(text: &str) -> String {
        match read_text(text, base()) {
            Ok(r) => r.write().unwrap().to_string(),
            Err(refusal) => refusal.to_string(),
        }
    }

    #[test]
    fn texts() {
        assert_eq!(read(""), "2024-03-13 09:30:00.000000000+00:00");
        assert_eq!(read("10:00 +2 hours"), "2024-03-13 11:00:00.000000000+02:00");
        assert_eq!(read("2024-02-29 +1 year"), "2025-03-01 00:00:00.000000000+00:00");
        assert_eq!(read("1.5 seconds ago"), "2024-03-13 09:29:58.500000000+00:00");
        assert_eq!(read("2147485547-12-31 +1 day"), "over");
        assert_eq!(read("0000-01-01 -1 day"), "under");
    }

    #[test]
    fn refusals() {
        assert_eq!(read("sept. 3"), "unread at byte 0");
        assert_eq!(read("0am"), "stopped at byte 0");
        assert_eq!(read("10:00 +1.1234567891 seconds"), "fraction at byte 5");
        assert_eq!(read("10:00:00.123456789000"), "2024-03-13 10:00:00.123456789+00:00");
        assert_eq!(read("10:00 11:00"), "twice at item 1");
        assert_eq!(read_text([50, 200], base()), Err(Refusal { number: 2, place: 1 }));
        assert_eq!(read_text(vec![b' '; 4097], base()), Err(Refusal { number: 1, place: 0 }));
        assert_eq!(read(&"day ".repeat(65)), "oversize");
        let unlike = Record { month: 13, ..base() };
        assert_eq!(read_text("", unlike).unwrap_err().word(), "month");
        assert_eq!(Record { offset_seconds: 30, ..base() }.write().unwrap_err().word(), "seam");
    }

    fn profile(text: &str) -> String {
        match read_profile(text, base()) {
            Ok(r) => r.write().unwrap().to_string(),
            Err(refusal) => refusal.to_string(),
        }
    }

    #[test]
    fn profiles() {
        assert_eq!(profile("2024-03-13"), "2024-03-13 00:00:00.000000000+00:00");
        assert_eq!(profile("0068-01-01"), "0068-01-01 00:00:00.000000000+00:00");
        assert_eq!(profile("2024-W11-3"), "2024-03-13 00:00:00.000000000+00:00");
        assert_eq!(profile("0000-W01-1"), "0000-01-03 00:00:00.000000000+00:00");
        assert_eq!(profile("9999-W52-7"), "10000-01-02 00:00:00.000000000+00:00");
        assert_eq!(profile("2024-W11-8"), "week");
        assert_eq!(profile("2024-13-01"), "month");
        assert_eq!(profile("2023-02-29"), "day");
        assert_eq!(profile("2024-13-4x"), "unread at byte 0");
        assert_eq!(profile(""), "unread at byte 0");
        assert_eq!(profile(&"0".repeat(4097)), "oversize");
        assert_eq!(read_profile(*b"2024-03-13\xc8", base()), Err(Refusal { number: 2, place: 10 }));
        let west = Record { offset_seconds: -19800, ..base() };
        assert_eq!(read_profile("2020-W53-5", west), Record::new(2021, 1, 1, 0, 0, 0, 0, -19800));
        assert_eq!(read_profile("2020-W53-5", Record { hour: 24, ..base() }).unwrap_err().word(), "hour");
    }

    #[test]
    fn written_and_moved() {
        for (seconds, offset) in [(0, 0), (-62167219200, 0), (1710322200, -34200), (67768036191676799, 0), (67768036191676799, -86400)] {
            let r = Record::from_unix_seconds(seconds, 999_999_999, offset).unwrap();
            let text = r.write().unwrap();
            assert_eq!(read_text(text.as_str(), base()), Ok(r));
            for n in [0, 1, 86399, 400 * 86400 * 365] {
                let later = read_text(format!("{text} +{n} seconds"), base());
                assert_eq!(later, Record::from_unix_seconds(seconds + n, 999_999_999, offset));
                let earlier = read_text(format!("{text} -{n} seconds"), base());
                assert_eq!(earlier, Record::from_unix_seconds(seconds - n, 999_999_999, offset));
            }
        }
    }

    fn built(packet: &PacketBuilder) -> String {
        match read_packet(packet.bytes(), base()) {
            Ok(r) => r.write().unwrap().to_string(),
            Err(refusal) => refusal.to_string(),
        }
    }

    #[test]
    fn packets() {
        assert_eq!(built(&PacketBuilder::new()), "2024-03-13 09:30:00.000000000+00:00");
        assert_eq!(built(PacketBuilder::new().date(Some(2023), 1, 31).relative(Unit::Months, 1)), "2023-03-03 00:00:00.000000000+00:00");
        assert_eq!(built(PacketBuilder::new().time(Clock::at(10, 0).offset(Zone::east(2, 0))).relative(Unit::Hours, 1)), "2024-03-13 11:00:00.000000000+02:00");
        assert_eq!(built(PacketBuilder::new().date_time(None, 2, 29, Clock::at(7, 5))), "2024-02-29 07:05:00.000000000+00:00");
        assert_eq!(built(PacketBuilder::new().weekday(Day::Monday, -1)), "2024-03-11 00:00:00.000000000+00:00");
        assert_eq!(built(PacketBuilder::new().zone(Zone::east(25, 0))), "2024-03-12 22:00:00.000000000+23:00");
        assert_eq!(built(PacketBuilder::new().zone(Zone::west(2, 30))), "2024-03-13 00:00:00.000000000-02:30");
        assert_eq!(built(PacketBuilder::new().local_zone().relative(Unit::Days, 0)), "2024-03-13 09:30:00.000000000+00:00");
        assert_eq!(built(PacketBuilder::new().seconds(-2, 500_000_000)), "2024-03-13 09:29:58.500000000+00:00");
        assert_eq!(built(PacketBuilder::new().date(None, 3, 5).pure("2023").pure("10")), "2023-03-05 10:00:00.000000000+00:00");
        assert_eq!(built(PacketBuilder::new().date(None, 3, 5).date(None, 3, 5)), "twice at item 1");
        assert_eq!(built(PacketBuilder::new().pure("10").pure("1x")), "packet at item 1");
        assert_eq!(built(PacketBuilder::new().pure("")), "packet at item 0");
        let mut many = PacketBuilder::new();
        for _ in 0..65 {
            many.relative(Unit::Days, 1);
        }
        assert_eq!(built(&many), "oversize");
        let mut long = PacketBuilder::new();
        long.date(None, 3, 5);
        let bytes = long.bytes();
        for n in 0..bytes.len() {
            assert_eq!(read_packet(&bytes[..n], base()), Err(Refusal { number: 5, place: 0 }));
        }
    }

    #[test]
    fn calendar() {
        assert_eq!(base().unix_seconds(), Ok(1710322200));
        assert_eq!(base().weekday(), Ok(2));
        assert_eq!(base().day_of_year(), Ok(73));
        assert_eq!(days_in_month(2100, 2), 28);
        assert_eq!(base().add_months(-1).unwrap().month, 2);
        assert_eq!(base().add_years(-2025), Err(Refusal { number: 10, place: 0 }));
        assert_eq!(base().add_days(i64::MAX), Err(Refusal { number: 18, place: 0 }));
        assert_eq!(base().add_hours(15).unwrap().day, 14);
        assert_eq!(base().add_minutes(-31).unwrap().hour, 8);
        assert_eq!(base().add_seconds(0, 1_000_000_000).unwrap().second, 1);
    }
}

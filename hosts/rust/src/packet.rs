//! Packets: items written as the bytes that [`read_packet`](crate::read_packet) reads.

/// A day of the week.
#[derive(Clone, Copy, Debug, PartialEq, Eq)]
pub enum Day {
    Monday,
    Tuesday,
    Wednesday,
    Thursday,
    Friday,
    Saturday,
    Sunday,
}

/// A unit of a relative item. Seconds have a nanosecond too: [`PacketBuilder::seconds`].
#[derive(Clone, Copy, Debug, PartialEq, Eq)]
pub enum Unit {
    Years = 1,
    Months,
    Days,
    Hours,
    Minutes,
}

/// A distance from UTC.
#[derive(Clone, Copy, Debug, PartialEq, Eq)]
pub struct Zone {
    negative: bool,
    hours: u8,
    minutes: u8,
}

impl Zone {
    pub fn east(hours: u8, minutes: u8) -> Zone {
        Zone { negative: false, hours, minutes }
    }

    pub fn west(hours: u8, minutes: u8) -> Zone {
        Zone { negative: true, hours, minutes }
    }
}

/// A time of day, with or without an offset of its own.
#[derive(Clone, Copy, Debug, PartialEq, Eq)]
pub struct Clock {
    pub hour: u8,
    pub minute: u8,
    pub second: u8,
    pub nanosecond: u32,
    pub offset: Option<Zone>,
}

impl Clock {
    pub fn at(hour: u8, minute: u8) -> Clock {
        Clock { hour, minute, second: 0, nanosecond: 0, offset: None }
    }

    pub fn offset(self, zone: Zone) -> Clock {
        Clock { offset: Some(zone), ..self }
    }
}

const KIND: usize = 0;
const WHICH: usize = 1;
const FLAGS: usize = 11;
const NANOSECOND: usize = 12;
const AMOUNT: usize = 20;

type Item = [u8; 28];

fn kind(kind: u8) -> Item {
    let mut item = [0; 28];
    item[KIND] = kind;
    item
}

fn set_date(item: &mut Item, year: Option<u32>, month: u8, day: u8) {
    item[2] = month;
    item[3] = day;
    if let Some(year) = year {
        item[4..8].copy_from_slice(&year.to_le_bytes());
        item[FLAGS] += 1;
    }
}

fn set_time(item: &mut Item, time: Clock) {
    item[8..11].copy_from_slice(&[time.hour, time.minute, time.second]);
    item[NANOSECOND..16].copy_from_slice(&time.nanosecond.to_le_bytes());
    if let Some(zone) = time.offset {
        item[FLAGS] += 2;
        set_zone(item, zone);
    }
}

fn set_zone(item: &mut Item, zone: Zone) {
    if zone.negative {
        item[FLAGS] += 4;
    }
    item[16..18].copy_from_slice(&[zone.hours, zone.minutes]);
}

/// Collects items, in order. Nothing is judged here: the reader answers for every rule, with the item's index.
#[derive(Clone, Debug, Default)]
pub struct PacketBuilder {
    items: Vec<Item>,
    digits: Vec<u8>,
}

impl PacketBuilder {
    pub fn new() -> PacketBuilder {
        PacketBuilder::default()
    }

    fn push(&mut self, item: Item) -> &mut PacketBuilder {
        self.items.push(item);
        self
    }

    /// A date; without a year it is of the base's year, or of the year that a pure number after it gives.
    pub fn date(&mut self, year: Option<u32>, month: u8, day: u8) -> &mut PacketBuilder {
        let mut item = kind(1);
        set_date(&mut item, year, month, day);
        self.push(item)
    }

    pub fn time(&mut self, time: Clock) -> &mut PacketBuilder {
        let mut item = kind(2);
        set_time(&mut item, time);
        self.push(item)
    }

    pub fn date_time(&mut self, year: Option<u32>, month: u8, day: u8, time: Clock) -> &mut PacketBuilder {
        let mut item = kind(3);
        set_date(&mut item, year, month, day);
        set_time(&mut item, time);
        self.push(item)
    }

    /// A day of the week: `weeks` is 0 for this, 1 for the next and -1 for the last one.
    pub fn weekday(&mut self, day: Day, weeks: i32) -> &mut PacketBuilder {
        let mut item = kind(4);
        item[WHICH] = day as u8;
        item[AMOUNT..].copy_from_slice(&i64::from(weeks).to_le_bytes());
        self.push(item)
    }

    pub fn zone(&mut self, zone: Zone) -> &mut PacketBuilder {
        let mut item = kind(5);
        set_zone(&mut item, zone);
        self.push(item)
    }

    pub fn local_zone(&mut self) -> &mut PacketBuilder {
        self.push(kind(6))
    }

    pub fn relative(&mut self, unit: Unit, amount: i32) -> &mut PacketBuilder {
        let mut item = kind(7);
        item[WHICH] = unit as u8;
        item[AMOUNT..].copy_from_slice(&i64::from(amount).to_le_bytes());
        self.push(item)
    }

    /// Seconds, and nanoseconds on top.
    pub fn seconds(&mut self, seconds: i64, nanoseconds: u32) -> &mut PacketBuilder {
        let mut item = kind(7);
        item[WHICH] = 6;
        item[NANOSECOND..16].copy_from_slice(&nanoseconds.to_le_bytes());
        item[AMOUNT..].copy_from_slice(&seconds.to_le_bytes());
        self.push(item)
    }

    /// A pure number: the year of a date that has none, or else a time.
    pub fn pure(&mut self, digits: &str) -> &mut PacketBuilder {
        let mut item = kind(8);
        // More digits than the field can count are cut here, and refused there.
        let length = digits.len().min(usize::from(u16::MAX)) as u16;
        item[18..20].copy_from_slice(&length.to_le_bytes());
        self.digits.extend_from_slice(digits.as_bytes());
        self.push(item)
    }

    /// The packet. What its header can't count is cut to the largest number, and refused when it is read.
    pub fn bytes(&self) -> Vec<u8> {
        let count = |n: usize| (n.min(usize::from(u16::MAX)) as u16).to_le_bytes();
        let mut bytes = Vec::with_capacity(8 + 28 * self.items.len() + self.digits.len());
        bytes.extend_from_slice(&count(self.items.len()));
        bytes.extend_from_slice(&count(8));
        bytes.extend_from_slice(&count(self.digits.len()));
        bytes.extend_from_slice(&count(8 + 28 * self.items.len()));
        bytes.extend(self.items.iter().flatten());
        bytes.extend_from_slice(&self.digits);
        bytes
    }
}

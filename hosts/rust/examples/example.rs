//! Reads texts and a packet under one base, and writes each record or refusal.

use seqtullo::{read_packet, read_profile, read_text, Day, PacketBuilder, Record, Refusal};

fn show(what: &str, answer: Result<Record, Refusal>) {
    match answer.and_then(Record::write) {
        Ok(text) => println!("{what}: {text}"),
        Err(refusal) => println!("{what}: refused with {}, {refusal}", refusal.number),
    }
}

fn main() -> Result<(), Refusal> {
    let base = Record::new(2024, 3, 13, 9, 30, 0, 0, 0)?;
    for text in ["2024-01-31 +1 month", "10:00 +2 hours", "10:00 sept. 3"] {
        show(text, read_text(text, base));
    }
    show("2020-W53-5", read_profile("2020-W53-5", base));
    let last_monday = PacketBuilder::new().weekday(Day::Monday, -1).bytes();
    show("last Monday", read_packet(last_monday, base));
    Ok(())
}

//! The converter: records of all kinds, of either edition, whole and damaged,
//! handed to the library and to a plain model that reads the record and writes
//! it with the harness's own encoder.

use crate::random::{damaged, Dice};
use crate::record::{read, write, Record};
use crate::writing::{self, Written};

/// An edition that is wanted, and a record's bytes.
pub fn case(seed: u64, number: u64) -> (u8, Vec<u8>) {
    let mut dice = Dice::new(seed ^ 0x43_4f_4e_56, number);
    let edition = if dice.below(20) == 0 {
        dice.below(256) as u8
    } else {
        dice.pick(&[1, 9])
    };
    let mut record = writing::record(&mut dice);
    if let Record::View {
        marked, entries, ..
    } = &mut record
    {
        *marked = dice.chance(60);
        let share = dice.pick(&[0, 0, 10, 60]);
        for entry in entries {
            entry.configuration = *marked && dice.chance(share);
        }
    }
    let bytes = write(&record);
    if !dice.chance(20) {
        return (edition, bytes);
    }
    let kind = u32::from(bytes[0] >> 4);
    (edition, damaged(&mut dice, bytes, kind))
}

/// The record's bytes in the edition, or its refusal.
fn converted(edition: u8, bytes: &[u8]) -> Result<Vec<u8>, u32> {
    if edition != 1 && edition != 9 {
        return Err(4);
    }
    let mut record = read(bytes)?;
    let Record::View {
        marked, entries, ..
    } = &mut record
    else {
        return Ok(bytes.to_vec());
    };
    if edition == 1 && entries.iter().any(|entry| entry.configuration) {
        return Err(16);
    }
    *marked = edition == 9;
    Ok(write(&record))
}

/// What the converter must answer and leave.
pub fn wanted(edition: u8, bytes: &[u8], buffer: &[u8]) -> Written {
    writing::left(converted(edition, bytes), buffer)
}

/// A buffer for the result: mostly long enough, and filled with anything.
pub fn buffer(seed: u64, number: u64, edition: u8, bytes: &[u8]) -> Vec<u8> {
    let needed = converted(edition, bytes).map_or(8, |result| result.len() as u32);
    writing::filled(&mut Dice::new(seed ^ 0x42_55_46, number), needed)
}

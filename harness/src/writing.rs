//! The writer: lists of numbers, whole and damaged, handed to the library and
//! to a plain model that looks at the numbers one after the other. What the
//! model accepts is packed by the harness's own encoder.

use crate::random::Dice;
use crate::record::{write, Configuration, Entry, Record, Row};

const INDEX_LIMIT: u64 = 256;
const CONTENT_LIMIT: u64 = 32;
const ANY: u64 = u32::MAX as u64;

/// The record that the numbers are, or the refusal of the first fault.
pub fn given(numbers: &[u64]) -> Result<Record, u32> {
    let mut list = List { numbers, next: 0 };
    let record = list.record()?;
    if list.next < numbers.len() {
        return Err(3);
    }
    Ok(record)
}

struct List<'a> {
    numbers: &'a [u64],
    next: usize,
}

impl List<'_> {
    /// 2 where the list has ended, 4 past the limit.
    fn number(&mut self, limit: u64) -> Result<u32, u32> {
        let number = *self.numbers.get(self.next).ok_or(2_u32)?;
        self.next += 1;
        if number > limit {
            return Err(4);
        }
        Ok(number as u32)
    }

    fn node(&mut self) -> Result<u32, u32> {
        self.number(63)
    }

    fn index(&mut self) -> Result<u32, u32> {
        self.number(INDEX_LIMIT)
    }

    fn term(&mut self) -> Result<u32, u32> {
        self.number(ANY)
    }

    fn record(&mut self) -> Result<Record, u32> {
        let kind = *self.numbers.first().ok_or(2_u32)?;
        self.next = 1;
        match kind {
            1 => self.view(),
            2 => Ok(Record::Commit {
                node: self.node()?,
                index: self.index()?,
            }),
            3 => Ok(Record::Terms {
                old: self.index()?,
                new: self.index()?,
                term: self.term()?,
            }),
            4 => {
                let (leader, term) = (self.node()?, self.term()?);
                let present = self.number(1)? == 1;
                let length = self.number(if present { INDEX_LIMIT } else { 0 })?;
                Ok(Record::Election {
                    leader,
                    term,
                    length: present.then_some(length),
                })
            }
            5 => Ok(Record::Check),
            6 => self.rows(),
            _ => Err(1),
        }
    }

    fn view(&mut self) -> Result<Record, u32> {
        let (node, count) = (self.node()?, self.index()?);
        let mut entries: Vec<Entry> = Vec::new();
        for _ in 0..count {
            let index = self.index()?;
            if index == 0 {
                return Err(4);
            }
            if entries.last().is_some_and(|before| index <= before.index) {
                return Err(5);
            }
            let (term, length) = (self.term()?, self.number(CONTENT_LIMIT)?);
            let content: Result<Vec<u8>, u32> = (0..length)
                .map(|_| self.number(255).map(|byte| byte as u8))
                .collect();
            entries.push(Entry {
                index,
                term,
                configuration: false,
                content: content?.into(),
            });
        }
        Ok(Record::View {
            node,
            marked: false,
            entries,
        })
    }

    fn rows(&mut self) -> Result<Record, u32> {
        let count = self.index()?;
        let mut rows: Vec<Row> = Vec::new();
        for _ in 0..count {
            let node = self.node()?;
            if rows.last().is_some_and(|before| node <= before.node) {
                return Err(5);
            }
            rows.push(Row {
                node,
                floor: self.index()?,
                commit: self.index()?,
                last: self.index()?,
                floor_configuration: self.configuration()?,
                actual_configuration: self.configuration()?,
            });
        }
        Ok(Record::Rows(rows))
    }

    fn configuration(&mut self) -> Result<Configuration, u32> {
        let present = self.number(1)? == 1;
        let index = self.number(if present { INDEX_LIMIT } else { 0 })?;
        let identity = self.number(if present { ANY } else { 0 })?;
        Ok(present.then_some((index, identity)))
    }
}

/// The numbers of a record, in the order of its fields.
pub fn numbers(record: &Record) -> Vec<u64> {
    let mut all = Vec::new();
    let mut put = |numbers: &[u32]| all.extend(numbers.iter().map(|n| u64::from(*n)));
    let configuration = |c: Configuration| {
        let (index, identity) = c.unwrap_or((0, 0));
        [u32::from(c.is_some()), index, identity]
    };
    match record {
        Record::View { node, entries, .. } => {
            put(&[1, *node, entries.len() as u32]);
            for entry in entries {
                put(&[entry.index, entry.term, entry.content.len() as u32]);
                for byte in entry.content.iter() {
                    put(&[u32::from(*byte)]);
                }
            }
        }
        Record::Commit { node, index } => put(&[2, *node, *index]),
        Record::Terms { old, new, term } => put(&[3, *old, *new, *term]),
        Record::Election {
            leader,
            term,
            length,
        } => {
            let present = u32::from(length.is_some());
            put(&[4, *leader, *term, present, length.unwrap_or(0)]);
        }
        Record::Check => put(&[5]),
        Record::Leader { node, term } => put(&[7, *node, *term]),
        Record::Rows(rows) => {
            put(&[6, rows.len() as u32]);
            for row in rows {
                put(&[row.node, row.floor, row.commit, row.last]);
                put(&configuration(row.floor_configuration));
                put(&configuration(row.actual_configuration));
            }
        }
    }
    all
}

/// The numbers at which a field's faults begin and end.
const EDGES: [u64; 22] = [
    0,
    1,
    2,
    6,
    7,
    8,
    15,
    16,
    17,
    31,
    32,
    33,
    63,
    64,
    255,
    256,
    257,
    1023,
    ANY,
    ANY + 1,
    ANY + 3,
    u64::MAX,
];

/// From 0 to the limit, and often the limit or near it.
fn number(dice: &mut Dice, limit: u32) -> u32 {
    match dice.below(4) {
        0 => limit,
        1 => dice.below(limit.min(3) + 1),
        2 => limit - dice.below(limit.min(2) + 1),
        _ => dice.below(limit.saturating_add(1)),
    }
}

/// Few items mostly, and now and then as many as there can be.
fn count(dice: &mut Dice, most: u32) -> u32 {
    if dice.below(200) == 0 {
        most
    } else {
        dice.below(5)
    }
}

fn entries(dice: &mut Dice) -> Vec<Entry> {
    let count = count(dice, 256);
    let mut index = 0;
    (0..count)
        .map(|before| {
            let gap = 257 - (count - before) - index;
            index += 1 + if dice.chance(70) { 0 } else { dice.below(gap) };
            let term = number(dice, u32::MAX);
            let length = number(dice, 32);
            Entry {
                index,
                term,
                configuration: false,
                content: (0..length).map(|_| number(dice, 255) as u8).collect(),
            }
        })
        .collect()
}

fn configuration(dice: &mut Dice) -> Configuration {
    dice.chance(60)
        .then(|| (number(dice, 256), number(dice, u32::MAX)))
}

fn rows(dice: &mut Dice) -> Vec<Row> {
    let count = count(dice, 64);
    (0..count)
        .map(|before| Row {
            node: if count == 64 { before } else { 13 * before + dice.below(12) },
            floor: number(dice, 256),
            commit: number(dice, 256),
            last: number(dice, 256),
            floor_configuration: configuration(dice),
            actual_configuration: configuration(dice),
        })
        .collect()
}

/// A record of any kind that is written.
pub fn record(dice: &mut Dice) -> Record {
    match dice.below(7) {
        0 => Record::View {
            node: number(dice, 63),
            marked: false,
            entries: entries(dice),
        },
        1 => Record::Commit {
            node: number(dice, 63),
            index: number(dice, 256),
        },
        2 => Record::Terms {
            old: number(dice, 256),
            new: number(dice, 256),
            term: number(dice, u32::MAX),
        },
        3 => Record::Election {
            leader: number(dice, 63),
            term: number(dice, u32::MAX),
            length: dice.chance(60).then(|| number(dice, 256)),
        },
        4 => Record::Check,
        5 => Record::Leader {
            node: number(dice, 63),
            term: number(dice, u32::MAX),
        },
        _ => Record::Rows(rows(dice)),
    }
}

/// A record's numbers, half of the time with a fault in them.
pub fn list(seed: u64, number: u64) -> Vec<u64> {
    let mut dice = Dice::new(seed, number);
    let mut all = numbers(&record(&mut dice));
    let edge = |dice: &mut Dice| EDGES[dice.below(EDGES.len() as u32) as usize];
    let faults = if dice.chance(50) { 1 + dice.below(2) } else { 0 };
    for _ in 0..faults {
        let place = dice.below(all.len() as u32 + 1) as usize;
        match dice.below(4) {
            0 => all.truncate(place),
            1 => all.push(edge(&mut dice)),
            _ if place < all.len() => all[place] = edge(&mut dice),
            _ => {}
        }
    }
    all
}

/// The refusal, the length and the buffer after it.
pub type Written = (u32, usize, Vec<u8>);

/// What the writer must answer and leave.
pub fn wanted(numbers: &[u64], buffer: &[u8]) -> Written {
    left(given(numbers).map(|record| write(&record)), buffer)
}

/// What a call that makes these bytes, or is refused, must answer and leave.
pub fn left(made: Result<Vec<u8>, u32>, buffer: &[u8]) -> Written {
    let mut after = buffer.to_vec();
    match made {
        Err(refusal) => (refusal, 0, after),
        Ok(bytes) if bytes.len() > buffer.len() => (13, 0, after),
        Ok(bytes) => {
            after[..bytes.len()].copy_from_slice(&bytes);
            (0, bytes.len(), after)
        }
    }
}

/// A buffer for the list: mostly long enough, and filled with anything.
pub fn buffer(seed: u64, number: u64, numbers: &[u64]) -> Vec<u8> {
    let needed = given(numbers).map_or(8, |record| write(&record).len() as u32);
    filled(&mut Dice::new(seed ^ 0x57_52_49_54_45, number), needed)
}

/// So many bytes mostly, or some more, and now and then fewer.
pub fn filled(dice: &mut Dice, needed: u32) -> Vec<u8> {
    let length = if dice.chance(20) {
        dice.below(needed + 1)
    } else {
        needed + dice.below(9)
    };
    (0..length).map(|_| dice.below(256) as u8).collect()
}

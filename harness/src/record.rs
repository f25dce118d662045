//! Records as document 01 packs them: the fields, their reading with
//! refusals 1 to 5, and their writing for the generators.

use std::sync::Arc;

#[derive(Clone, Debug, Eq, PartialEq)]
pub struct Entry {
    pub index: u32,
    pub term: u32,
    /// A configuration entry; else a portion record.
    pub configuration: bool,
    pub content: Arc<[u8]>,
}

/// Index and identity.
pub type Configuration = Option<(u32, u32)>;

#[derive(Clone, Debug, Eq, PartialEq)]
pub struct Row {
    pub node: u32,
    pub floor: u32,
    pub commit: u32,
    pub last: u32,
    pub floor_configuration: Configuration,
    pub actual_configuration: Configuration,
}

#[derive(Clone, Debug, Eq, PartialEq)]
pub enum Record {
    /// Kind 9 where it shows the marks of its entries, else kind 1.
    View {
        node: u32,
        marked: bool,
        entries: Vec<Entry>,
    },
    Commit {
        node: u32,
        index: u32,
    },
    Terms {
        old: u32,
        new: u32,
        term: u32,
    },
    Election {
        leader: u32,
        term: u32,
        length: Option<u32>,
    },
    Check,
    Rows(Vec<Row>),
    Leader {
        node: u32,
        term: u32,
    },
}

const ANY: u32 = u32::MAX;
const INDEX_LIMIT: u32 = 256;
const CONTENT_LIMIT: u32 = 32;

/// The record, or the refusal of the first fault from the left.
pub fn read(bytes: &[u8]) -> Result<Record, u32> {
    let mut reader = Reader { bytes, next: 0 };
    let record = reader.record()?;
    reader.end()?;
    Ok(record)
}

struct Reader<'a> {
    bytes: &'a [u8],
    next: usize,
}

impl Reader<'_> {
    /// A field of so many bits: 2 where they are missing, 4 past the limit.
    fn field(&mut self, width: usize, limit: u32) -> Result<u32, u32> {
        if self.next + width > 8 * self.bytes.len() {
            return Err(2);
        }
        let end = self.next + width;
        // At most five bytes hold the field; the bits after it are shifted out.
        let held = &self.bytes[self.next / 8..end.div_ceil(8)];
        let value = held
            .iter()
            .fold(0_u64, |all, byte| all << 8 | u64::from(*byte));
        let value = (value >> (8 * end.div_ceil(8) - end) & ((1 << width) - 1)) as u32;
        self.next = end;
        if value > limit {
            return Err(4);
        }
        Ok(value)
    }

    fn node(&mut self) -> Result<u32, u32> {
        self.field(6, 63)
    }

    fn index(&mut self) -> Result<u32, u32> {
        self.field(10, INDEX_LIMIT)
    }

    fn term(&mut self) -> Result<u32, u32> {
        self.field(32, ANY)
    }

    fn record(&mut self) -> Result<Record, u32> {
        match self.field(4, ANY)? {
            1 => self.view(false),
            9 => self.view(true),
            2 => Ok(Record::Commit {
                node: self.node()?,
                index: self.index()?,
            }),
            3 => Ok(Record::Terms {
                old: self.index()?,
                new: self.index()?,
                term: self.term()?,
            }),
            4 => self.election(),
            5 => Ok(Record::Check),
            6 => self.rows(),
            7 => Ok(Record::Leader {
                node: self.node()?,
                term: self.term()?,
            }),
            _ => Err(1),
        }
    }

    fn view(&mut self, marked: bool) -> Result<Record, u32> {
        let node = self.node()?;
        let count = self.index()?;
        let mut entries = Vec::with_capacity(count as usize);
        let mut before = 0;
        for _ in 0..count {
            let index = self.index()?;
            if index == 0 {
                return Err(4);
            }
            if index <= before {
                return Err(5);
            }
            before = index;
            let term = self.term()?;
            let configuration = marked && self.field(1, 1)? == 1;
            let length = self.field(6, CONTENT_LIMIT)?;
            let mut content = [0; CONTENT_LIMIT as usize];
            let content = &mut content[..length as usize];
            for byte in content.iter_mut() {
                *byte = self.field(8, ANY)? as u8;
            }
            entries.push(Entry {
                index,
                term,
                configuration,
                content: Arc::from(&*content),
            });
        }
        Ok(Record::View {
            node,
            marked,
            entries,
        })
    }

    fn election(&mut self) -> Result<Record, u32> {
        let leader = self.node()?;
        let term = self.term()?;
        let length = if self.field(1, 1)? == 1 {
            Some(self.index()?)
        } else {
            self.field(10, 0)?;
            None
        };
        Ok(Record::Election {
            leader,
            term,
            length,
        })
    }

    fn rows(&mut self) -> Result<Record, u32> {
        let count = self.index()?;
        let mut rows: Vec<Row> = Vec::new();
        for _ in 0..count {
            let node = self.node()?;
            if rows.last().is_some_and(|before| node <= before.node) {
                return Err(5);
            }
            rows.push(Row {
                node,
                floor: self.index()?,
                commit: self.index()?,
                last: self.index()?,
                floor_configuration: self.configuration()?,
                actual_configuration: self.configuration()?,
            });
        }
        Ok(Record::Rows(rows))
    }

    fn configuration(&mut self) -> Result<Configuration, u32> {
        if self.field(1, 1)? == 1 {
            return Ok(Some((self.index()?, self.field(32, ANY)?)));
        }
        self.field(10, 0)?;
        self.field(32, 0)?;
        Ok(None)
    }

    /// 3: a bit set in the filling, or a further byte.
    fn end(&mut self) -> Result<(), u32> {
        let left = 8 * self.bytes.len() - self.next;
        if left >= 8 || self.field(left, ANY) != Ok(0) {
            return Err(3);
        }
        Ok(())
    }
}

/// Packs fields without looking at limits, so that it can also write faults.
#[derive(Clone, Default)]
pub struct Writer {
    pub bytes: Vec<u8>,
    used: usize,
}

impl Writer {
    pub fn put(&mut self, value: u32, width: usize) -> &mut Self {
        for bit in (0..width).rev() {
            if self.used % 8 == 0 {
                self.bytes.push(0);
            }
            let last = self.bytes.len() - 1;
            self.bytes[last] |= ((value >> bit & 1) as u8) << (7 - self.used % 8);
            self.used += 1;
        }
        self
    }

    fn configuration(&mut self, configuration: Configuration) {
        let (index, identity) = configuration.unwrap_or((0, 0));
        self.put(u32::from(configuration.is_some()), 1);
        self.put(index, 10).put(identity, 32);
    }
}

pub fn write(record: &Record) -> Vec<u8> {
    let mut w = Writer::default();
    match record {
        Record::View {
            node,
            marked,
            entries,
        } => {
            let kind = if *marked { 9 } else { 1 };
            w.put(kind, 4).put(*node, 6).put(entries.len() as u32, 10);
            for entry in entries {
                w.put(entry.index, 10).put(entry.term, 32);
                if *marked {
                    w.put(u32::from(entry.configuration), 1);
                }
                w.put(entry.content.len() as u32, 6);
                for byte in entry.content.iter() {
                    w.put(u32::from(*byte), 8);
                }
            }
        }
        Record::Commit { node, index } => {
            w.put(2, 4).put(*node, 6).put(*index, 10);
        }
        Record::Terms { old, new, term } => {
            w.put(3, 4).put(*old, 10).put(*new, 10).put(*term, 32);
        }
        Record::Election {
            leader,
            term,
            length,
        } => {
            w.put(4, 4).put(*leader, 6).put(*term, 32);
            w.put(u32::from(length.is_some()), 1);
            w.put(length.unwrap_or(0), 10);
        }
        Record::Check => {
            w.put(5, 4);
        }
        Record::Rows(rows) => {
            w.put(6, 4).put(rows.len() as u32, 10);
            for row in rows {
                w.put(row.node, 6).put(row.floor, 10);
                w.put(row.commit, 10).put(row.last, 10);
                w.configuration(row.floor_configuration);
                w.configuration(row.actual_configuration);
            }
        }
        Record::Leader { node, term } => {
            w.put(7, 4).put(*node, 6).put(*term, 32);
        }
    }
    w.bytes
}

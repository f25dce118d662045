//! Random chains. Each is made from a seed and its number alone, so any one
//! of them can be run again by itself.

use std::sync::Arc;

use crate::record::{write, Entry, Record, Row, Writer};

/// Splitmix64: small, and good enough to pick chains.
pub struct Dice(u64);

impl Dice {
    pub fn new(seed: u64, number: u64) -> Self {
        let mut dice = Self(seed);
        let mixed = dice.next();
        Self(mixed ^ number.wrapping_mul(0xD134_2543_DE82_EF95))
    }

    fn next(&mut self) -> u64 {
        self.0 = self.0.wrapping_add(0x9E37_79B9_7F4A_7C15);
        let mut z = self.0;
        z = (z ^ z >> 30).wrapping_mul(0xBF58_476D_1CE4_E5B9);
        z = (z ^ z >> 27).wrapping_mul(0x94D0_49BB_1331_11EB);
        z ^ z >> 31
    }

    /// From 0 to `n` - 1.
    pub fn below(&mut self, n: u32) -> u32 {
        ((self.next() >> 32) * u64::from(n) >> 32) as u32
    }

    pub fn chance(&mut self, percent: u32) -> bool {
        self.below(100) < percent
    }

    pub fn pick<T: Clone>(&mut self, from: &[T]) -> T {
        from[self.below(from.len() as u32) as usize].clone()
    }
}

/// What the fields of a chain are drawn from.
struct World {
    nodes: Vec<u32>,
    terms: Vec<u32>,
    contents: Vec<Arc<[u8]>>,
    /// Commit and term indexes go to here.
    reach: u32,
    /// Whole logs that views show a beginning of; none: views are made up.
    logs: Vec<Vec<Entry>>,
    /// Percent of views with a gap, and of records that are damaged.
    gaps: u32,
    damage: u32,
    /// Percent of views that show the marks of their entries.
    marks: u32,
    /// How often each kind comes, 1 to 7; kind 9 comes as kind 1.
    weights: [u32; 7],
    records: u32,
    /// The length of the front that each node showed last, so that commits
    /// and elections mostly stay within it.
    fronts: [u32; 64],
    /// What comes before the random records.
    start: Vec<Vec<u8>>,
}

pub fn chain(seed: u64, number: u64) -> Vec<Vec<u8>> {
    let mut dice = Dice::new(seed, number);
    let mut world = match dice.below(1000) {
        0..370 => tiny(&mut dice),
        370..430 => leaders(&mut dice),
        430..730 => logs(&mut dice),
        730..880 => wide(&mut dice),
        880..986 => elections(&mut dice),
        986..988 => crowd(&mut dice),
        988..989 => brim_of_leaders(&mut dice),
        989..993 => brim_of_findings(&mut dice),
        993..995 => brim_of_prefixes(&mut dice),
        _ => full(&mut dice),
    };
    let mut chain = std::mem::take(&mut world.start);
    chain.extend((0..world.records).map(|_| record(&mut dice, &mut world)));
    chain
}

/// The first half of a chain, marks to set then, and the second half.
pub fn marked(seed: u64, number: u64) -> (Vec<Vec<u8>>, Vec<u32>, Vec<Vec<u8>>) {
    let mut start = chain(seed, number);
    let rest = start.split_off(start.len() / 2);
    let mut dice = Dice::new(!seed, number);
    let marks = (0..64).map(|_| match dice.below(8) {
        0 => dice.below(257),
        _ => dice.below(8),
    });
    (start, marks.collect(), rest)
}

/// Few nodes, terms and contents, so that everything meets everything.
fn tiny(dice: &mut Dice) -> World {
    World {
        nodes: vec![0, 1, 2],
        terms: vec![0, 1, 1, 2, 3],
        contents: contents(&[b"", b"", b"a", b"\0"]),
        reach: 4,
        logs: Vec::new(),
        gaps: 15,
        damage: 6,
        marks: 35,
        weights: [30, 20, 17, 15, 15, 3, 14],
        records: 1 + dice.below(14),
        fronts: [0; 64],
        start: Vec::new(),
    }
}

/// A few logs that begin alike and part: what servers really show.
fn logs(dice: &mut Dice) -> World {
    let contents = contents(&[b"", b"a", b"b", b"\x01\x02\x03"]);
    let first = rising_log(dice, 12, &contents);
    let mut logs = vec![first];
    for _ in 0..1 + dice.below(3) {
        let mut log = dice.pick(&logs);
        let kept = dice.below(log.len() as u32 + 1) as usize;
        log.truncate(kept);
        let least = log.last().map_or(1, |entry| entry.term);
        let longer = 1 + dice.below(6) as usize;
        let bump = dice.below(3);
        extend(dice, &mut log, longer, least + bump, &contents);
        logs.push(log);
    }
    World {
        nodes: vec![0, 1, 2, 3, 63],
        terms: vec![1, 2, 3, 4, 5, 6, 9],
        contents,
        reach: 12,
        logs,
        gaps: 4,
        damage: 4,
        marks: 35,
        weights: [32, 22, 16, 14, 14, 2, 14],
        records: 4 + dice.below(16),
        fronts: [0; 64],
        start: Vec::new(),
    }
}

/// Values from the whole range of each field.
fn wide(dice: &mut Dice) -> World {
    let long: Arc<[u8]> = (0..32).collect::<Vec<u8>>().into();
    let mut other = long.to_vec();
    other[31] ^= 1;
    let mut contents = contents(&[b"", b"\xff", b"\0\0"]);
    contents.extend([long, other.into()]);
    World {
        nodes: vec![0, 1, 31, 32, 62, 63],
        terms: vec![0, 1, 2, 255, 256, 65535, 1 << 31, u32::MAX - 1, u32::MAX],
        contents,
        reach: 256,
        logs: Vec::new(),
        gaps: 10,
        damage: 12,
        marks: 35,
        weights: [30, 15, 15, 15, 10, 15, 10],
        records: 1 + dice.below(10),
        fronts: [0; 64],
        start: Vec::new(),
    }
}

/// Many elections and checks over few commits: marks go up and down.
fn elections(dice: &mut Dice) -> World {
    let contents = contents(&[b"", b"x"]);
    let logs = vec![
        rising_log(dice, 5, &contents),
        rising_log(dice, 5, &contents),
    ];
    World {
        nodes: vec![0, 1, 2, 3],
        terms: vec![0, 1, 2, 2, 3, 3, 4, 5],
        contents,
        reach: 5,
        logs,
        gaps: 3,
        damage: 2,
        marks: 35,
        weights: [12, 12, 26, 25, 25, 0, 4],
        records: 10 + dice.below(30),
        fronts: [0; 64],
        start: Vec::new(),
    }
}

/// Two nodes that are leaders again and again, with views that grow, shrink,
/// part and have gaps.
fn leaders(dice: &mut Dice) -> World {
    World {
        nodes: vec![0, 1],
        terms: vec![1, 2],
        gaps: 25,
        weights: [48, 4, 3, 3, 3, 0, 48],
        records: 5 + dice.below(25),
        ..logs(dice)
    }
}

/// More elections than there is room for.
fn crowd(dice: &mut Dice) -> World {
    World {
        weights: [4, 3, 5, 80, 5, 0, 2],
        records: 70 + dice.below(40),
        ..elections(dice)
    }
}

/// Almost, or just, as many findings as there is room for, and then small
/// records that bring one or two more, or the same again.
fn brim_of_findings(dice: &mut Dice) -> World {
    let length = 120 + dice.below(9);
    let of_one_term = |first: &[u8]| {
        let entry = |index| Entry {
            index,
            term: 1,
            configuration: false,
            content: if index == 1 { first.into() } else { [].into() },
        };
        (1..=length).map(entry).collect::<Vec<_>>()
    };
    let (one, other) = (of_one_term(b"a"), of_one_term(b"b"));
    let mut world = World {
        logs: vec![one[..3].to_vec(), other[..3].to_vec(), other[..2].to_vec()],
        nodes: vec![0, 1, 2],
        reach: 4,
        records: 6 + dice.below(16),
        weights: [25, 30, 12, 15, 18, 0, 15],
        ..elections(dice)
    };
    for (node, entries) in [(0, one), (1, other)] {
        let marked = false;
        world.start.push(write(&Record::View {
            node,
            marked,
            entries,
        }));
        world.fronts[node as usize] = length;
    }
    // A node that is marked unseen, and may show something later.
    if dice.chance(50) {
        let (node, index) = (2, 3);
        world.start.push(write(&Record::Commit { node, index }));
    }
    world
}

/// Almost, or just, as many logs kept for leaders as there is room for; some
/// of these chains come near the limit of findings as well.
fn brim_of_leaders(dice: &mut Dice) -> World {
    let mut world = if dice.chance(50) {
        brim_of_findings(dice)
    } else {
        logs(dice)
    };
    for pair in 0..60 + dice.below(5) {
        let (node, term) = (pair % 16, 1 + pair / 16);
        world.start.push(write(&Record::Leader { node, term }));
    }
    world.weights = [30, 10, 2, 2, 2, 0, 60];
    world.records += 6;
    world
}

/// Almost, or just, as many prefixes as there is room for.
fn brim_of_prefixes(dice: &mut Dice) -> World {
    let mut world = tiny(dice);
    for (node, length) in [(0, 256), (1, 250 + dice.below(7))] {
        let entries = (1..=length).map(|index| Entry {
            index,
            term: 10 + node,
            configuration: false,
            content: [].into(),
        });
        world.start.push(write(&Record::View {
            node,
            marked: false,
            entries: entries.collect(),
        }));
        world.fronts[node as usize] = length;
    }
    world
}

/// Long logs that part early: the limits of prefixes and findings come near.
fn full(dice: &mut Dice) -> World {
    let contents = contents(&[b"", b"p", b"q"]);
    let mut first = Vec::new();
    let length = 30 + dice.below(227) as usize;
    extend(dice, &mut first, length, 1, &contents);
    let mut logs = vec![first.clone()];
    for _ in 0..3 {
        let mut log = first.clone();
        let place = dice.below(length as u32) as usize;
        // The same terms over another content: an LG-03 for each later entry.
        log[place].content = b"other".as_slice().into();
        if dice.chance(50) {
            log[place].term += 1;
        }
        logs.push(log);
    }
    World {
        nodes: vec![0, 1, 2, 3, 4, 5, 6, 7],
        terms: vec![1, 2, 3, 4, 200],
        contents,
        reach: length as u32,
        logs,
        gaps: 2,
        damage: 2,
        marks: 35,
        weights: [45, 20, 10, 12, 13, 0, 10],
        records: 8 + dice.below(24),
        fronts: [0; 64],
        start: Vec::new(),
    }
}

fn contents(of: &[&[u8]]) -> Vec<Arc<[u8]>> {
    of.iter().map(|bytes| Arc::from(*bytes)).collect()
}

fn rising_log(dice: &mut Dice, most: u32, contents: &[Arc<[u8]>]) -> Vec<Entry> {
    let mut log = Vec::new();
    let length = 1 + dice.below(most) as usize;
    extend(dice, &mut log, length, 1, contents);
    log
}

/// So many entries more, terms rising now and then from `least`.
fn extend(dice: &mut Dice, log: &mut Vec<Entry>, more: usize, least: u32, contents: &[Arc<[u8]>]) {
    let mut term = least;
    for _ in 0..more {
        if dice.chance(25) {
            term += 1;
        }
        log.push(Entry {
            index: log.len() as u32 + 1,
            term,
            configuration: dice.chance(20),
            content: dice.pick(contents),
        });
    }
}

fn record(dice: &mut Dice, world: &mut World) -> Vec<u8> {
    let kind = kind(dice, &world.weights);
    let record = match kind {
        1 => view(dice, world),
        2 => commit(dice, world),
        3 => terms(dice, world),
        4 => election(dice, world),
        5 => Record::Check,
        6 => rows(dice, world),
        _ => leader(dice, world),
    };
    let bytes = write(&record);
    if dice.chance(world.damage) {
        let kind = u32::from(bytes[0] >> 4);
        return damaged(dice, bytes, kind);
    }
    if let Record::View { node, entries, .. } = &record {
        let front = (1..)
            .zip(entries)
            .take_while(|(place, entry)| entry.index == *place);
        world.fronts[*node as usize] = front.count() as u32;
    }
    bytes
}

/// Mostly a node that shows something.
fn node(dice: &mut Dice, world: &World) -> u32 {
    let showing = |node: &u32| world.fronts[*node as usize] > 0;
    let shown: Vec<u32> = world.nodes.iter().copied().filter(showing).collect();
    if shown.is_empty() || dice.chance(10) {
        return dice.pick(&world.nodes);
    }
    dice.pick(&shown)
}

fn commit(dice: &mut Dice, world: &World) -> Record {
    let node = node(dice, world);
    let front = world.fronts[node as usize];
    let index = match dice.below(10) {
        0 => dice.below(world.reach + 1),
        1..4 => front,
        _ => dice.below(front + 1),
    };
    Record::Commit { node, index }
}

/// Mostly of one of two terms, so that pairs come again.
fn leader(dice: &mut Dice, world: &World) -> Record {
    let node = node(dice, world);
    let term = match dice.below(10) {
        0 | 1 => dice.pick(&world.terms),
        2..4 => world.terms[1],
        _ => world.terms[0],
    };
    Record::Leader { node, term }
}

fn kind(dice: &mut Dice, weights: &[u32; 7]) -> u32 {
    let mut left = dice.below(weights.iter().sum());
    for (kind, weight) in (1..).zip(weights) {
        if left < *weight {
            return kind;
        }
        left -= weight;
    }
    unreachable!("the throw is below the sum")
}

fn view(dice: &mut Dice, world: &World) -> Record {
    let node = dice.pick(&world.nodes);
    let mut entries = if world.logs.is_empty() {
        made_up(dice, world)
    } else {
        let log = dice.pick(&world.logs);
        let shown = match dice.below(3) {
            0 => log.len(),
            _ => dice.below(log.len() as u32 + 1) as usize,
        };
        log[..shown].to_vec()
    };
    if !entries.is_empty() && dice.chance(world.gaps) {
        let place = dice.below(entries.len() as u32) as usize;
        let highest = entries[entries.len() - 1].index;
        let skip = 1 + dice.below(3.min(256 - highest).max(1));
        if highest + skip <= 256 {
            entries[place..]
                .iter_mut()
                .for_each(|entry| entry.index += skip);
        }
    }
    // Now and then a log that is alike but for one entry.
    if !entries.is_empty() && dice.chance(10) {
        let place = dice.below(entries.len() as u32) as usize;
        if dice.chance(50) {
            entries[place].term = dice.pick(&world.terms);
        } else {
            entries[place].content = dice.pick(&world.contents);
        }
    }
    // A log is shown with its marks, or as portion records: the two may part.
    let marked = dice.chance(world.marks);
    if !marked {
        entries
            .iter_mut()
            .for_each(|entry| entry.configuration = false);
    }
    Record::View {
        node,
        marked,
        entries,
    }
}

fn made_up(dice: &mut Dice, world: &World) -> Vec<Entry> {
    (1..=dice.below(5))
        .map(|index| Entry {
            index,
            term: dice.pick(&world.terms),
            configuration: dice.chance(20),
            content: dice.pick(&world.contents),
        })
        .collect()
}

fn terms(dice: &mut Dice, world: &World) -> Record {
    let one = dice.below(world.reach + 1);
    let two = dice.below(world.reach + 1);
    let (mut old, mut new) = (one.min(two), one.max(two));
    if dice.chance(8) {
        (old, new) = (new, old);
    }
    if dice.chance(40) {
        old = 0;
    }
    Record::Terms {
        old,
        new,
        term: dice.pick(&world.terms),
    }
}

fn election(dice: &mut Dice, world: &World) -> Record {
    let leader = node(dice, world);
    let front = world.fronts[leader as usize];
    let length = match dice.below(10) {
        0 => Some(dice.below(world.reach + 1)),
        1..3 => None,
        3..6 => Some(front),
        _ => Some(dice.below(front + 1)),
    };
    Record::Election {
        leader,
        term: dice.pick(&world.terms),
        length,
    }
}

fn rows(dice: &mut Dice, world: &World) -> Record {
    let reach = world.reach.min(2 + dice.below(255));
    let mut node = dice.below(3);
    let mut rows = Vec::new();
    for _ in 0..dice.below(6) {
        let floor = dice.below(reach + 1);
        // Mostly sound, so that later rules and rows are reached.
        let commit = if dice.chance(85) {
            floor + dice.below(reach - floor + 1)
        } else {
            dice.below(reach + 1)
        };
        let last = if dice.chance(85) {
            commit + dice.below(reach - commit + 1)
        } else {
            dice.below(reach + 1)
        };
        let floor_configuration = configuration(dice, reach);
        let actual_configuration = if dice.chance(70) {
            floor_configuration.or_else(|| configuration(dice, reach))
        } else {
            configuration(dice, reach)
        };
        rows.push(Row {
            node,
            floor,
            commit,
            last,
            floor_configuration,
            actual_configuration,
        });
        node += 1 + dice.below(12);
        if node > 63 {
            break;
        }
    }
    Record::Rows(rows)
}

fn configuration(dice: &mut Dice, reach: u32) -> Option<(u32, u32)> {
    let identity = dice.below(3).wrapping_sub(1);
    let index = dice.below(reach.min(3) + 1);
    dice.chance(60).then_some((index, identity))
}

/// Flipped bits, cut bytes, added bytes, a field beyond its limit, or noise.
pub fn damaged(dice: &mut Dice, mut bytes: Vec<u8>, kind: u32) -> Vec<u8> {
    match dice.below(6) {
        0 | 1 => {
            for _ in 0..1 + dice.below(2) {
                let bit = dice.below(8 * bytes.len() as u32);
                bytes[bit as usize / 8] ^= 128 >> (bit % 8);
            }
        }
        2 => {
            let kept = dice.below(bytes.len() as u32) as usize;
            bytes.truncate(kept);
        }
        3 => {
            for _ in 0..1 + dice.below(2) {
                let byte = dice.pick(&[0, 0, 1, 128, 255]);
                bytes.push(byte);
            }
        }
        4 => bytes = beyond(dice, kind),
        _ => {
            let length = dice.below(12);
            bytes = (0..length).map(|_| dice.below(256) as u8).collect();
        }
    }
    bytes
}

/// A record of the kind with fields around their limits, in or out.
fn beyond(dice: &mut Dice, kind: u32) -> Vec<u8> {
    const INDEXES: [u32; 7] = [0, 1, 2, 255, 256, 257, 1023];
    let mut w = Writer::default();
    w.put(kind, 4);
    match kind {
        1 | 9 => {
            let count = dice.pick(&[0, 1, 2, 2, 3, 257, 1023]);
            w.put(dice.below(64), 6).put(count, 10);
            for _ in 0..count.min(3) {
                let length = dice.pick(&[0, 0, 1, 32, 33, 63]);
                w.put(dice.pick(&INDEXES), 10).put(dice.below(3), 32);
                if kind == 9 {
                    w.put(dice.below(2), 1);
                }
                w.put(length, 6);
                for _ in 0..length {
                    w.put(dice.below(2), 8);
                }
            }
        }
        2 => {
            w.put(dice.below(64), 6).put(dice.pick(&INDEXES), 10);
        }
        3 => {
            w.put(dice.pick(&INDEXES), 10)
                .put(dice.pick(&INDEXES), 10)
                .put(dice.below(3), 32);
        }
        4 => {
            w.put(dice.below(64), 6).put(dice.below(3), 32);
            w.put(dice.below(2), 1).put(dice.pick(&INDEXES), 10);
        }
        6 => {
            let count = dice.pick(&[0, 1, 2, 2, 3, 257]);
            w.put(count, 10);
            for _ in 0..count.min(3) {
                w.put(dice.below(4), 6);
                for _ in 0..3 {
                    w.put(dice.pick(&[0, 0, 1, 256, 257]), 10);
                }
                for _ in 0..2 {
                    w.put(dice.below(2), 1);
                    w.put(dice.pick(&[0, 0, 0, 1, 257]), 10)
                        .put(dice.pick(&[0, 0, 0, 1]), 32);
                }
            }
        }
        7 => {
            w.put(dice.below(64), 6).put(dice.below(3), 32);
        }
        _ => {}
    }
    w.bytes
}

//! Times per record on five kinds of chains: the Rust's functions alone, the
//! Rust from the record's bytes, and the library's `submit`, which is handed
//! the same bytes. Then times per record of writing, by the harness's encoder
//! and by the library's writer, and of converting, beside reading. See
//! harness/README.md.

mod chains;

use std::hint::black_box;
use std::time::{Duration, Instant};

use harness::library::{converter, subject, writer, Convert};
use harness::oracle::{call, hush_refusal_8, Oracle};
use harness::record::{read, write, Record};
use harness::subject::Subject;
use harness::writing::numbers;
use rafter_sim::model_check::judge::{Call, Histories};

use chains::{largest, written, workloads, Workload, Written};

/// Passes that are timed, after one that is not. The shortest counts: what
/// makes a pass longer is other work on the machine.
const PASSES: usize = 31;

/// Another subject's column: its name, and what takes the records.
type Column = (&'static str, Box<dyn Subject>);

fn main() {
    hush_refusal_8();
    let mut column = column();
    let other = column.as_ref().map_or("submit", |(name, _)| *name);
    println!(
        "{:<44} {:>8} {:>12} {:>12} {:>12} {:>8} {:>8}",
        "chain", "records", "Rust alone", "with reading", other, "/alone", "/reading"
    );
    for workload in workloads() {
        assert_accepted(&mut Oracle::default(), &workload);
        if let Some((_, subject)) = &mut column {
            assert_accepted(subject.as_mut(), &workload);
        }
        let records = workload.chains.iter().map(Vec::len).sum::<usize>();
        let per_record = |time: Duration| time.as_nanos() as f64 / records as f64;
        let alone = per_record(rust_alone(&workload));
        let reading = per_record(rust_with_reading(&workload));
        let library = column
            .as_mut()
            .map(|(_, subject)| submit(subject.as_mut(), &workload));
        let library = library.map(per_record);
        let shown = |number: Option<f64>, digits| {
            number.map_or("-".to_string(), |number| format!("{number:.digits$}"))
        };
        println!(
            "{:<44} {records:>8} {alone:>9.0} ns {reading:>9.0} ns {:>9} ns {:>8} {:>8}",
            workload.name,
            shown(library, 0),
            shown(library.map(|time| time / alone), 2),
            shown(library.map(|time| time / reading), 2),
        );
    }
    if let Some(write) = writer() {
        table_of_writing(write);
    }
    if let Some(convert) = converter() {
        table_of_converting(convert);
    }
}

/// Writes the record that the numbers are: the refusal, and how many bytes.
type Write = fn(&[u64], &mut [u8]) -> (u32, usize);

fn table_of_writing(library: Write) {
    println!(
        "\n{:<44} {:>8} {:>12} {:>12} {:>8}",
        "written", "records", "encoder", "library", "/encoder"
    );
    for Written { name, records } in written() {
        let per_record = |time: Duration| time.as_nanos() as f64 / records.len() as f64;
        let encoder = per_record(encoded(&records));
        let library = per_record(by_library(library, &records));
        println!(
            "{name:<44} {:>8} {encoder:>9.0} ns {library:>9.0} ns {:>8.2}",
            records.len(),
            library / encoder,
        );
    }
}

/// A record of the edition that is wanted, into no buffer: it is read, and
/// refused with 13. So reading alone is timed.
fn table_of_converting(convert: Convert) {
    println!(
        "\n{:<44} {:>12} {:>12} {:>8}",
        "converted", "read", "converted", "/read"
    );
    for (name, own, other) in [("1 to 9", 1, 9), ("9 to 1", 9, 1)] {
        let record = write(&largest(own == 9));
        let mut buffer = vec![0; 65_535];
        let mut time = |edition: u8, room: usize, answer: u32| {
            assert_eq!(convert(edition, &record, &mut buffer[..room]).0, answer);
            let pass = shortest(|| {
                let start = Instant::now();
                for _ in 0..20 {
                    black_box(convert(edition, black_box(&record), &mut buffer[..room]));
                }
                start.elapsed()
            });
            pass.as_nanos() as f64 / 20.0
        };
        let reading = time(own, 0, 13);
        let converting = time(other, 65_535, 0);
        let name = format!("the largest view, kind {name}");
        println!(
            "{name:<44} {reading:>9.0} ns {converting:>9.0} ns {:>8.2}",
            converting / reading
        );
    }
}

fn encoded(records: &[Record]) -> Duration {
    shortest(|| {
        let start = Instant::now();
        for record in records {
            black_box(write(black_box(record)));
        }
        start.elapsed()
    })
}

/// From lists that were made before, into one lent buffer.
fn by_library(write: Write, records: &[Record]) -> Duration {
    let lists: Vec<Vec<u64>> = records.iter().map(numbers).collect();
    let mut buffer = vec![0; 65_535];
    for list in &lists {
        assert_eq!(write(list, &mut buffer).0, 0, "a list that is a record");
    }
    shortest(|| {
        let start = Instant::now();
        for list in &lists {
            black_box(write(black_box(list), &mut buffer));
        }
        start.elapsed()
    })
}

/// The library, where it is linked. Without it there is nothing to time: the
/// model is made for reading, not for speed.
fn column() -> Option<Column> {
    cfg!(history).then(subject)
}

/// Both sides do the whole work for each record only if none is refused.
fn assert_accepted(subject: &mut dyn Subject, workload: &Workload) {
    for chain in &workload.chains {
        subject.fresh();
        for record in chain {
            assert_eq!(subject.submit(record).refusal, 0, "{}", workload.name);
        }
    }
}

fn shortest(mut pass: impl FnMut() -> Duration) -> Duration {
    pass();
    (0..PASSES).map(|_| pass()).min().unwrap_or_default()
}

/// The functions alone, on clusters that were made before.
fn rust_alone(workload: &Workload) -> Duration {
    let prepared: Vec<Vec<Call>> = workload
        .chains
        .iter()
        .map(|chain| prepared_calls(chain))
        .collect();
    shortest(|| {
        let mut histories = vec![Histories::default(); prepared.len()];
        let start = Instant::now();
        for (history, chain) in histories.iter_mut().zip(&prepared) {
            for call in chain {
                black_box(history.run(call));
            }
        }
        start.elapsed()
    })
}

/// From the record's bytes: reading them, making the cluster, the function.
fn rust_with_reading(workload: &Workload) -> Duration {
    shortest(|| {
        let mut histories = vec![Histories::default(); workload.chains.len()];
        let start = Instant::now();
        for (history, chain) in histories.iter_mut().zip(&workload.chains) {
            for record in chain {
                let call = made(record, history);
                black_box(history.run(&call));
            }
        }
        start.elapsed()
    })
}

/// The calls of a chain: a leader's cluster is made of the view that the
/// histories hold then.
fn prepared_calls(chain: &[Vec<u8>]) -> Vec<Call> {
    let mut history = Histories::default();
    let mut calls = Vec::new();
    for record in chain {
        let call = made(record, &history);
        history.run(&call);
        calls.push(call);
    }
    calls
}

fn made(record: &[u8], history: &Histories) -> Call {
    call(&read(record).expect("a chain of accepted records"), history)
}

/// The library on one lent buffer. Making it fresh is not timed.
fn submit(subject: &mut dyn Subject, workload: &Workload) -> Duration {
    shortest(|| {
        let mut total = Duration::ZERO;
        for chain in &workload.chains {
            subject.fresh();
            let start = Instant::now();
            for record in chain {
                black_box(subject.submit(record));
            }
            total += start.elapsed();
        }
        total
    })
}

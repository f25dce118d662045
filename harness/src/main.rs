//! `harness`: the commands. See README.md.

use std::process::ExitCode;
use std::time::Instant;
use std::{env, fs};

use harness::compare::{compare, hex, smallest, Counts};
use harness::figures::figures;
use harness::library::{converter, subject, writer};
use harness::limits::limits;
use harness::marked::Marked;
use harness::model::{Mistake, Model, MISTAKES};
use harness::judge::Judge;
use harness::oracle::hush_refusal_8;
use harness::subject::Subject;
use harness::{converting, random, sheet, small, writing};

const USAGE: &str = "harness sheet FILE              the sheet of a recording, by the Rust
harness sheets DIR              the sheets of all DIR/*.records against DIR/*.sheet
harness run [--seed S] [--chains N] [--from K] [--depth D]
                                figures, limits, all chains of at most D small records, N random chains,
                                a tenth of them from other marks as well
harness mistakes [--seed S]     each mistake of the model on purpose, and the smallest chain that shows it
harness writing [--seed S] [--lists N]
                                N lists of numbers, half of them damaged, to the library's writer and to a plain one
harness converting [--seed S] [--records N]
                                N records of either edition, some of them damaged, to the library's converter and to a plain one
harness write DIR [--seed S] [--chains N]
                                recordings of the figures, the limits and N random chains, with their sheets by the Rust
harness chain S K               the recording of random chain K of seed S, in hexadecimal";

fn main() -> ExitCode {
    hush_refusal_8();
    let words: Vec<String> = env::args().skip(1).collect();
    let words: Vec<&str> = words.iter().map(String::as_str).collect();
    let good = match words.as_slice() {
        ["sheet", file] => print_sheet(file),
        ["sheets", directory] => check_sheets(directory),
        ["run", options @ ..] => run(options),
        ["writing", options @ ..] => lists_written(options),
        ["converting", options @ ..] => records_converted(options),
        ["mistakes", options @ ..] => mistakes(options),
        ["write", directory, options @ ..] => write_recordings(directory, options),
        ["chain", seed, number] => print_chain(seed, number),
        _ => Err(USAGE.to_string()),
    };
    match good {
        Ok(true) => ExitCode::SUCCESS,
        Ok(false) => ExitCode::FAILURE,
        Err(message) => {
            eprintln!("{message}");
            ExitCode::from(2)
        }
    }
}

type Verdict = Result<bool, String>;

fn bytes_of(file: &str) -> Result<Vec<u8>, String> {
    fs::read(file).map_err(|error| format!("{file}: {error}"))
}

fn print_sheet(file: &str) -> Verdict {
    print!("{}", sheet::sheet(&mut Judge::default(), &bytes_of(file)?));
    Ok(true)
}

fn print_chain(seed: &str, number: &str) -> Verdict {
    let number_of = |word: &str| word.parse().map_err(|_| USAGE.to_string());
    let chain = random::chain(number_of(seed)?, number_of(number)?);
    println!("{}", hex(&sheet::recording(&chain)));
    Ok(true)
}

/// Recordings with their sheets, for a replay with no Rust at hand.
fn write_recordings(directory: &str, options: &[&str]) -> Verdict {
    let seed = option(options, "--seed", 1)?;
    let chains = option(options, "--chains", 0)?;
    let dashed = |name: &str| {
        let words = name.split(|c: char| !c.is_ascii_alphanumeric());
        words
            .filter(|w| !w.is_empty())
            .collect::<Vec<_>>()
            .join("-")
    };
    let figures = figures().into_iter().map(|figure| {
        let name = format!("figure-{}", dashed(figure.name));
        (name, figure.chain)
    });
    let limits = limits().into_iter().map(|limit| {
        let name = format!("limit-{}", dashed(limit.name));
        (name, limit.chain)
    });
    let random = (0..chains).map(|number| {
        let name = format!("random-{seed}-{number}");
        (name, random::chain(seed, number))
    });
    fs::create_dir_all(directory).map_err(|error| format!("{directory}: {error}"))?;
    for (name, chain) in figures.chain(limits).chain(random) {
        let recording = sheet::recording(&chain);
        let printed = sheet::sheet(&mut Judge::default(), &recording);
        for (ending, bytes) in [("records", recording), ("sheet", printed.into_bytes())] {
            let file = format!("{directory}/{name}.{ending}");
            fs::write(&file, bytes).map_err(|error| format!("{file}: {error}"))?;
        }
    }
    Ok(true)
}

/// Every recording of a folder, byte for byte, by the oracle and by the
/// subject; and the two side by side, record by record.
fn check_sheets(directory: &str) -> Verdict {
    let listing = fs::read_dir(directory).map_err(|error| format!("{directory}: {error}"))?;
    let mut names: Vec<String> = listing
        .filter_map(|entry| entry.ok()?.path().to_str().map(str::to_string))
        .filter_map(|path| path.strip_suffix(".records").map(str::to_string))
        .collect();
    names.sort();
    let (other, mut subject) = subject();
    let mut wrong = 0;
    let mut counts = Counts::default();
    for name in &names {
        let recording = bytes_of(&format!("{name}.records"))?;
        let expected = bytes_of(&format!("{name}.sheet"))?;
        let by_oracle = sheet::sheet(&mut Judge::default(), &recording);
        let by_subject = sheet::sheet(subject.as_mut(), &recording);
        for (who, printed) in [("the Rust", by_oracle), (other, by_subject)] {
            if printed.as_bytes() != expected {
                println!("{name}: {who} prints another sheet");
                wrong += 1;
            }
        }
        let records = sheet::records(&recording);
        let (oracle, subject) = (&mut Judge::default(), subject.as_mut());
        let name = || name.clone();
        wrong += u32::from(differs(oracle, subject, &name, &records, &mut counts, true));
    }
    println!(
        "states compared: {}, with a mark between zero and the end: {}",
        counts.states, counts.marks_between
    );
    println!(
        "sheets: {} recordings by the Rust and by {other}, {wrong} differences",
        names.len()
    );
    Ok(wrong == 0 && !names.is_empty())
}

/// The value of `--name` among the options.
fn option(options: &[&str], name: &str, default: u64) -> Result<u64, String> {
    match options.iter().position(|word| *word == name) {
        None => Ok(default),
        Some(place) => options
            .get(place + 1)
            .and_then(|word| word.parse().ok())
            .ok_or_else(|| USAGE.to_string()),
    }
}

/// Compares chains and tells of the first few that differ.
struct Runner {
    oracle: Judge,
    other: &'static str,
    subject: Box<dyn Subject>,
    counts: Counts,
    differences: u64,
}

impl Runner {
    fn new() -> Self {
        let (other, subject) = subject();
        Self {
            oracle: Judge::default(),
            other,
            subject,
            counts: Counts::default(),
            differences: 0,
        }
    }

    fn chain(&mut self, name: &dyn Fn() -> String, chain: &[Vec<u8>]) {
        self.differences += u64::from(differs(
            &mut self.oracle,
            self.subject.as_mut(),
            name,
            chain,
            &mut self.counts,
            self.differences < 5,
        ));
    }

    /// A random chain whose second half starts from other marks.
    fn marked(&mut self, seed: u64, number: u64) {
        let (start, marks, chain) = random::marked(seed, number);
        let name = || {
            let start = hex(&sheet::recording(&start));
            format!("marked chain {number} of seed {seed}, after {start} and the marks {marks:?}")
        };
        self.differences += u64::from(differs(
            &mut Marked::new(&mut self.oracle, &start, &marks),
            &mut Marked::new(self.subject.as_mut(), &start, &marks),
            &name,
            &chain,
            &mut self.counts,
            self.differences < 5,
        ));
    }

    fn figures(&mut self) {
        for figure in figures() {
            self.chain(&|| format!("figure {}", figure.name), &figure.chain);
            sheet::sheet(&mut self.oracle, &sheet::recording(&figure.chain));
            let found = self.oracle.lists().findings;
            if found != figure.findings {
                self.differences += 1;
                println!(
                    "DIFFERENCE at figure {}: the Rust finds {found:?}",
                    figure.name
                );
            }
        }
    }

    fn limits(&mut self) {
        for limit in limits() {
            self.chain(&|| format!("limit {}", limit.name), &limit.chain);
            self.oracle.fresh();
            let met: Vec<u32> = limit
                .chain
                .iter()
                .map(|record| self.oracle.submit(record).refusal)
                .collect();
            if met != limit.refusals {
                self.differences += 1;
                println!("DIFFERENCE at limit {}: refusals {met:?}", limit.name);
            }
        }
    }
}

/// Whether the two differ on a chain; tells of it with a smallest one.
fn differs(
    oracle: &mut dyn Subject,
    subject: &mut dyn Subject,
    name: &dyn Fn() -> String,
    chain: &[Vec<u8>],
    counts: &mut Counts,
    tells: bool,
) -> bool {
    let differ = compare(oracle, subject, chain, counts).is_some();
    if differ && tells {
        let (chain, difference) = smallest(oracle, subject, chain);
        println!("DIFFERENCE at {}, record {}:", name(), difference.record);
        println!("  {}", difference.what);
        println!("  smallest recording: {}", hex(&sheet::recording(&chain)));
    }
    differ
}

fn run(options: &[&str]) -> Verdict {
    let seed = option(options, "--seed", 1)?;
    let chains = option(options, "--chains", 20_000)?;
    let from = option(options, "--from", 0)?;
    let depth = option(options, "--depth", 3)? as u32;
    let mut runner = Runner::new();
    println!("compared: the Rust with {}", runner.other);

    let start = Instant::now();
    runner.figures();
    runner.limits();
    println!(
        "figures and limits: {} and {} chains, {:.1?}",
        figures().len(),
        limits().len(),
        start.elapsed()
    );
    for dozen in small::dozens() {
        let start = Instant::now();
        for (number, chain) in small::chains(&dozen, depth).enumerate() {
            runner.chain(
                &|| format!("small chain {number} of {}", dozen.name),
                &chain,
            );
        }
        println!(
            "all {} chains of at most {depth} of a dozen, {}: {:.1?}",
            small::count(depth),
            dozen.name,
            start.elapsed()
        );
    }
    let start = Instant::now();
    for number in from..from + chains {
        runner.chain(
            &|| format!("random chain {number} of seed {seed}"),
            &random::chain(seed, number),
        );
    }
    println!(
        "{chains} random chains of seed {seed} from number {from}: {:.1?}",
        start.elapsed()
    );
    let start = Instant::now();
    (from..from + chains / 10).for_each(|number| runner.marked(seed, number));
    println!(
        "{} of them again, from the middle and from other marks: {:.1?}",
        chains / 10,
        start.elapsed()
    );
    print_counts(&runner.counts);
    println!(
        "  records judged by the plain model, behind a check that met a commit term of zero: {}",
        runner.oracle.by_the_model
    );
    println!("{} differences", runner.differences);
    Ok(runner.differences == 0)
}

fn lists_written(options: &[&str]) -> Verdict {
    let seed = option(options, "--seed", 1)?;
    let lists = option(options, "--lists", 1_000_000)?;
    let Some(write) = writer() else {
        println!("writing: not run, for want of the library");
        return Ok(true);
    };
    let start = Instant::now();
    let mut answers = [0_u64; 14];
    let mut differences = 0;
    for number in 0..lists {
        let numbers = writing::list(seed, number);
        let before = writing::buffer(seed, number, &numbers);
        let wanted = writing::wanted(&numbers, &before);
        let mut after = before.clone();
        let (refusal, length) = write(&numbers, &mut after);
        let got = (refusal, length, after);
        answers[wanted.0 as usize] += 1;
        if got != wanted {
            differences += 1;
            println!("list {number} of seed {seed}, {numbers:?}: {got:?}, not {wanted:?}");
        }
    }
    println!(
        "{lists} lists of numbers of seed {seed}, answered 0 to 13 so often: {answers:?}; {differences} differences; {:.1?}",
        start.elapsed()
    );
    Ok(differences == 0)
}

fn print_counts(counts: &Counts) {
    let listed = |name: &str, numbers: &[u64]| {
        let pairs = numbers
            .iter()
            .enumerate()
            .filter(|(_, number)| **number > 0);
        let words: Vec<String> = pairs
            .map(|(which, number)| format!("{which}: {number}"))
            .collect();
        println!("  {name}: {}", words.join(", "));
    };
    println!("{} records in {} chains", counts.records, counts.chains);
    listed("accepted, by kind", &counts.accepted);
    listed("refused, by refusal", &counts.refused);
    listed("commits, checks and leaders, by flags", &counts.flags);
    listed("rows, by rule", &counts.rules);
    listed("chains that end with LG-0n", &counts.found);
    println!(
        "  chains that end with unseen: {}, with unknown: {}",
        counts.unseen, counts.unknown
    );
    println!(
        "  states compared: {}, with a gap in a view: {}, in one kept for a leader: {}, a certificate without a log: {}, a mark between zero and the end: {}, past it: {}",
        counts.states, counts.gaps, counts.kept_gaps, counts.logless, counts.marks_between, counts.marks_past
    );
    println!(
        "  leader lists held against the plain ledger: {}, not empty: {}",
        counts.ledger_checks, counts.ledger_leaders
    );
}

/// Each mistake must be noticed; this says how soon and shows the smallest chain.
fn mistakes(options: &[&str]) -> Verdict {
    let seed = option(options, "--seed", 1)?;
    let most = option(options, "--chains", 100_000)?;
    let mut unnoticed = 0;
    for mistake in MISTAKES {
        // From a fresh history no mark passes the committed end, so all marks may move.
        let shown = if mistake == Mistake::AllMarksMove {
            notice(most, mistake, &|number| random::marked(seed, number))
        } else {
            let whole = |number| (Vec::new(), Vec::new(), random::chain(seed, number));
            notice(most, mistake, &whole)
        };
        unnoticed += u64::from(shown.is_none());
        println!("{mistake:?}: {}", shown.as_deref().unwrap_or("NOT NOTICED"));
    }
    println!("{} mistakes, {unnoticed} not noticed", MISTAKES.len());
    Ok(unnoticed == 0)
}

/// Records to start from, marks to set then, and the records to compare.
type Chain = (Vec<Vec<u8>>, Vec<u32>, Vec<Vec<u8>>);

/// The first chain that shows a mistake, its records made few and small.
fn notice(most: u64, mistake: Mistake, chain: &dyn Fn(u64) -> Chain) -> Option<String> {
    let (mut oracle, mut model) = (Judge::default(), Model::with(mistake));
    for number in 0..most {
        let (start, marks, chain) = chain(number);
        let oracle = &mut Marked::new(&mut oracle, &start, &marks);
        let model = &mut Marked::new(&mut model, &start, &marks);
        if compare(oracle, model, &chain, &mut Counts::default()).is_some() {
            let (chain, difference) = smallest(oracle, model, &chain);
            let from = match start.len() {
                0 => String::new(),
                length => format!(" from record {length} on, with other marks"),
            };
            let (record, shown) = (difference.record, shortened(&chain));
            return Some(format!("chain {number}{from}, record {record}: {shown}"));
        }
    }
    None
}

fn shortened(chain: &[Vec<u8>]) -> String {
    let records: Vec<String> = chain.iter().map(|record| hex(record)).collect();
    let shown = records.join(" ");
    if shown.len() > 160 {
        return format!("{}.. ({} bytes)", &shown[..150], shown.len() / 2);
    }
    shown
}

fn records_converted(options: &[&str]) -> Verdict {
    let seed = option(options, "--seed", 1)?;
    let records = option(options, "--records", 1_000_000)?;
    let Some(convert) = converter() else {
        println!("converting: not run, for want of the library");
        return Ok(true);
    };
    let start = Instant::now();
    let mut answers = [0_u64; 17];
    let mut differences = 0;
    for number in 0..records {
        let (edition, record) = converting::case(seed, number);
        let before = converting::buffer(seed, number, edition, &record);
        let wanted = converting::wanted(edition, &record, &before);
        let mut after = before.clone();
        let (refusal, length) = convert(edition, &record, &mut after);
        let got = (refusal, length, after);
        answers[wanted.0 as usize] += 1;
        if got != wanted {
            differences += 1;
            println!("record {number} of seed {seed}, to {edition}, {record:?}: {got:?}, not {wanted:?}");
        }
    }
    println!(
        "{records} records of seed {seed} converted, answered 0 to 16 so often: {answers:?}; {differences} differences; {:.1?}",
        start.elapsed()
    );
    Ok(differences == 0)
}

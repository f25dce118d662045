//! Recordings and the printed sheet.

use std::fmt::Write;

use crate::subject::{Lists, Subject};

/// A piece of a recording: a record, or one that is cut in its length or body.
enum Piece<'a> {
    Whole(&'a [u8]),
    Cut,
}

fn pieces(recording: &[u8]) -> Vec<Piece<'_>> {
    let mut pieces = Vec::new();
    let mut rest = recording;
    while !rest.is_empty() {
        let body = rest.get(..2).and_then(|head| {
            let length = usize::from(head[0]) * 256 + usize::from(head[1]);
            rest.get(2..2 + length)
        });
        match body {
            Some(body) => {
                pieces.push(Piece::Whole(body));
                rest = &rest[2 + body.len()..];
            }
            None => {
                pieces.push(Piece::Cut);
                break;
            }
        }
    }
    pieces
}

/// The records of a recording: its pieces that are neither cut nor empty.
pub fn records(recording: &[u8]) -> Vec<Vec<u8>> {
    let whole = |piece: Piece| match piece {
        Piece::Whole(record) if !record.is_empty() => Some(record.to_vec()),
        Piece::Whole(_) | Piece::Cut => None,
    };
    pieces(recording).into_iter().filter_map(whole).collect()
}

/// Joins records to a recording.
pub fn recording(chain: &[Vec<u8>]) -> Vec<u8> {
    let mut out = Vec::new();
    for record in chain {
        out.extend((record.len() as u16).to_be_bytes());
        out.extend(record);
    }
    out
}

/// The sheet of a recording, by the subject.
pub fn sheet(subject: &mut dyn Subject, recording: &[u8]) -> String {
    subject.fresh();
    let mut out = String::new();
    for (number, piece) in (1..).zip(pieces(recording)) {
        match piece {
            Piece::Whole(record) if !record.is_empty() => {
                let answer = subject.submit(record);
                let verdict = match answer.refusal {
                    0 => "ok".to_string(),
                    refusal => refusal.to_string(),
                };
                let kind = record[0] >> 4;
                let _ = writeln!(
                    out,
                    "{number} {kind} {verdict} {} {}",
                    answer.value, answer.node
                );
            }
            Piece::Whole(_) | Piece::Cut => {
                let _ = writeln!(out, "{number} 0 2 0 0");
            }
        }
    }
    print_lists(&mut out, &subject.lists());
    out
}

fn print_lists(out: &mut String, lists: &Lists) {
    for f in &lists.findings {
        let _ = writeln!(out, "LG-0{} {} {} {}", f.name, f.node, f.index, f.term);
    }
    for (term, leader) in &lists.leaders {
        let _ = writeln!(out, "leader {term} {leader}");
    }
    for (node, index) in &lists.unseen {
        let _ = writeln!(out, "unseen {node} {index}");
    }
    for index in &lists.unknown {
        let _ = writeln!(out, "unknown {index}");
    }
    let (length, owner) = lists.committed;
    let _ = writeln!(out, "committed {length} {owner}");
}

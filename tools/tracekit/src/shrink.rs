//! Cuts a trace down to a short one that still has a property, such as 'two programs differ'.
//!
//! Records are dropped in ever smaller groups, then by two that stand anywhere; what is left is
//! made simpler: settings go back to defaults, writes get shorter, counts lower, bytes plainer.

use crate::names::SPECIALS;
use crate::record::{split, Piece, Record, Settings, What};
use std::collections::HashSet;
use std::hash::{DefaultHasher, Hash, Hasher};
use std::time::{Duration, Instant};

/// No new try starts after this time.
const TIME_MAX: Duration = Duration::from_secs(120);
/// Up to this many records, all pairs are tried.
const PAIRS_MAX: usize = 48;

/// The shortest trace found that has the property. `line` is the result line that shows it first.
pub fn shrink(trace: &[u8], line: usize, holds: impl Fn(&[u8]) -> bool) -> Vec<u8> {
    let pieces = split(trace)
        .iter()
        .map(|piece| piece.bytes.to_vec())
        .collect();
    let mut shrinker = Shrinker {
        pieces,
        holds,
        tried: HashSet::new(),
        started: Instant::now(),
    };
    shrinker.cut_behind(line);
    while shrinker.has_time() {
        let before = shrinker.pieces.clone();
        shrinker.drop_groups();
        shrinker.plain_bytes();
        shrinker.simplify_all();
        if shrinker.pieces == before {
            shrinker.drop_pairs();
        }
        if shrinker.pieces == before {
            break;
        }
    }
    shrinker.pieces.concat()
}

struct Shrinker<F> {
    pieces: Vec<Vec<u8>>,
    holds: F,
    /// The traces tried in vain, by their hash: runs of equal records give many equal ones.
    tried: HashSet<u64>,
    started: Instant,
}

impl<F: Fn(&[u8]) -> bool> Shrinker<F> {
    fn has_time(&self) -> bool {
        self.started.elapsed() < TIME_MAX
    }

    /// Takes other pieces if they have the property too.
    fn try_pieces(&mut self, pieces: Vec<Vec<u8>>) -> bool {
        let trace = pieces.concat();
        let mut hasher = DefaultHasher::new();
        trace.hash(&mut hasher);
        if !self.has_time() || !self.tried.insert(hasher.finish()) {
            return false;
        }
        let taken = (self.holds)(&trace);
        if taken {
            self.pieces = pieces;
        }
        taken
    }

    /// Drops what comes after the record of a line.
    fn cut_behind(&mut self, line: usize) {
        if line + 1 < self.pieces.len() {
            self.try_pieces(self.pieces[..=line].to_vec());
        }
    }

    /// Drops groups of neighbours, from half of all down to single ones, last ones first.
    fn drop_groups(&mut self) {
        let mut size = self.pieces.len().div_ceil(2);
        while size > 0 {
            let mut end = self.pieces.len();
            while end > 0 {
                let start = end.saturating_sub(size);
                let mut fewer = self.pieces.clone();
                fewer.drain(start..end);
                self.try_pieces(fewer);
                end = start;
            }
            size /= 2;
        }
    }

    /// Drops two records that stand anywhere.
    fn drop_pairs(&mut self) {
        if self.pieces.len() > PAIRS_MAX {
            return;
        }
        let mut second = self.pieces.len();
        while second > 1 {
            second -= 1;
            for first in (0..second).rev() {
                let mut fewer = self.pieces.clone();
                fewer.remove(second);
                fewer.remove(first);
                if self.try_pieces(fewer) {
                    second -= 1;
                    break;
                }
            }
        }
    }

    /// Makes all good bytes of one value plain at once, value by value.
    fn plain_bytes(&mut self) {
        let plain = good_piece(b'a');
        for byte in 0..=255 {
            let old = good_piece(byte);
            if old == plain || !self.pieces.contains(&old) {
                continue;
            }
            let plainer = |piece: &Vec<u8>| if *piece == old { &plain } else { piece }.clone();
            self.try_pieces(self.pieces.iter().map(plainer).collect());
        }
    }

    /// Makes every record as simple as it goes.
    fn simplify_all(&mut self) {
        for place in 0..self.pieces.len() {
            while self.simplify(place) {}
        }
    }

    /// Puts one simpler record in a place, if one does.
    fn simplify(&mut self, place: usize) -> bool {
        let simpler = simpler_pieces(&self.pieces[place]);
        simpler.into_iter().any(|piece| {
            let mut pieces = self.pieces.clone();
            pieces[place] = piece;
            self.try_pieces(pieces)
        })
    }
}

/// Simpler forms of a piece, the simplest first. Each is simpler in an order that has an end.
fn simpler_pieces(bytes: &[u8]) -> Vec<Vec<u8>> {
    let pieces = split(bytes);
    let Some(Piece {
        what: What::Record(record),
        ..
    }) = pieces.first()
    else {
        return Vec::new();
    };
    simpler_records(record).iter().map(piece_of).collect()
}

fn piece_of(record: &Record) -> Vec<u8> {
    let mut bytes = Vec::new();
    record.put(&mut bytes);
    bytes
}

fn good_piece(byte: u8) -> Vec<u8> {
    piece_of(&Record::Good(byte))
}

fn simpler_records(record: &Record) -> Vec<Record> {
    match record {
        Record::Settings(settings) => simpler_settings(settings),
        Record::Good(byte) => plainer(*byte).map(Record::Good).collect(),
        Record::Parity(byte) => plainer(*byte).map(Record::Parity).collect(),
        Record::Framing(byte) => plainer(*byte).map(Record::Framing).collect(),
        Record::Read { count, nonblocking } => {
            let lower = lower(*count).map(|count| Record::Read {
                count,
                nonblocking: *nonblocking,
            });
            let blocking = nonblocking.then_some(Record::Read {
                count: *count,
                nonblocking: false,
            });
            blocking.into_iter().chain(lower).collect()
        }
        Record::Write(body) => shorter(body),
        Record::Transmit(count) => lower(*count).map(Record::Transmit).collect(),
        Record::Foreground { group, orphaned } => simpler_group(*group, *orphaned),
        _ => Vec::new(),
    }
}

/// The plain byte, unless it is that one.
fn plainer(byte: u8) -> impl Iterator<Item = u8> {
    (byte != b'a').then_some(b'a').into_iter()
}

/// Lower counts, by less and less.
fn lower(count: u16) -> impl Iterator<Item = u16> {
    let steps = [count, count / 2, count / 4, count / 8, 8, 2, 1];
    let steps = steps
        .into_iter()
        .filter(move |step| (1..=count).contains(step));
    steps.map(move |step| count - step)
}

/// The defaults, then each single difference gone, or lower where it is a number.
fn simpler_settings(settings: &Settings) -> Vec<Record> {
    let default = Settings::default();
    let mut simpler = Vec::new();
    if *settings != default {
        simpler.push(default);
    }
    for place in 0..32 {
        let flag = 1 << place;
        if (settings.flags ^ default.flags) & flag != 0 {
            let flags = settings.flags ^ flag;
            simpler.push(Settings { flags, ..*settings });
        }
    }
    for (place, value) in default.values.into_iter().enumerate() {
        if settings.values[place] != value {
            let mut one = *settings;
            one.values[place] = value;
            simpler.push(one);
        }
        if place >= SPECIALS && settings.values[place] > value {
            let mut one = *settings;
            one.values[place] /= 2;
            simpler.push(one);
            one.values[place] = settings.values[place] - 1;
            simpler.push(one);
        }
    }
    simpler.into_iter().map(Record::Settings).collect()
}

/// Writes with a part of the body gone, then with plain bytes.
fn shorter(body: &[u8]) -> Vec<Record> {
    let mut simpler = Vec::new();
    let mut size = body.len();
    while size > 0 {
        for start in (0..body.len()).step_by(size) {
            let end = body.len().min(start + size);
            simpler.push([&body[..start], &body[end..]].concat());
        }
        size /= 2;
    }
    simpler.dedup();
    if body.iter().any(|&byte| byte != b'a') {
        simpler.push(vec![b'a'; body.len()]);
    }
    simpler.into_iter().map(Record::Write).collect()
}

fn simpler_group(group: u32, orphaned: bool) -> Vec<Record> {
    let mut simpler = Vec::new();
    if group > 1 {
        simpler.push(Record::Foreground { group: 1, orphaned });
    }
    if orphaned {
        simpler.push(Record::Foreground {
            group,
            orphaned: false,
        });
    }
    simpler
}

#[cfg(test)]
mod tests {
    use super::*;
    use crate::asm::assemble;
    use crate::dump::dump;

    fn shrunk(script: &str, holds: impl Fn(&[u8]) -> bool) -> String {
        let trace = assemble(script.as_bytes()).unwrap_or_default();
        dump(&shrink(&trace, usize::MAX - 1, holds))
    }

    fn has(trace: &[u8], wanted: impl Fn(&Record) -> bool) -> bool {
        split(trace)
            .iter()
            .any(|piece| matches!(&piece.what, What::Record(record) if wanted(record)))
    }

    #[test]
    fn what_does_not_matter_goes() {
        let short = shrunk(
            "good \"abc\" NL\ntick 5\nread 100 nonblocking\nwrite \"hello\"\n",
            |trace| {
                has(
                    trace,
                    |record| matches!(record, Record::Read { count, .. } if *count > 6),
                ) && has(
                    trace,
                    |record| matches!(record, Record::Write(body) if body.contains(&b'l')),
                )
            },
        );
        assert_eq!(short, "read 7\nwrite \"l\"\n");
    }

    #[test]
    fn settings_go_back_to_the_defaults() {
        let short = shrunk("settings +PARMRK -ECHO MIN=9 INTR='x'\n", |trace| {
            has(
                trace,
                |record| matches!(record, Record::Settings(settings) if settings.values[13] >= 3),
            )
        });
        assert_eq!(short, "settings MIN=3\n");
    }

    #[test]
    fn two_that_need_each_other_go_together() {
        let short = shrunk("break\ncancel\ngood \"x\"\nhangup\n", |trace| {
            let cancel = has(trace, |record| *record == Record::Cancel);
            let hangup = has(trace, |record| *record == Record::Hangup);
            cancel == hangup && has(trace, |record| matches!(record, Record::Good(_)))
        });
        assert_eq!(short, "good \"a\"\n");
    }
}

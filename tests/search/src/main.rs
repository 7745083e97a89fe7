//! The search of the request table by id (C-13: "stop at the match"), as the gate makes it: compared with a plain search, and timed.
//!
//! `search`: its last line is `N passed, M failed`. The environment variable SEED repeats the compared searches.
//! `search PLACE SEARCHES`: makes so many searches that match at that place, and no more: for counting instructions.

mod library;

use std::env;
use std::process::ExitCode;
use std::time::{Duration, Instant};

use plain::PLACES;
use tools::{ensure, Random, Report};

use library::search;

/// Searches that are timed in a row.
const SEARCHES: usize = 1_000_000;
const ROUNDS: usize = 11;
/// Matches at the last place take at least so many times as long as matches at the first.
const TIMES: u32 = 4;

fn main() -> ExitCode {
    let words: Vec<usize> = env::args()
        .skip(1)
        .map(|word| word.parse().expect("search [PLACE SEARCHES]"))
        .collect();
    if let [place, searches] = words[..] {
        let matched = Matches::at(place).hold(searches);
        return ExitCode::from(u8::from(!matched));
    }
    let seed = tools::seed();
    let mut report = Report::default();
    report.group("every place", every_place);
    report.group("any tables", |report| any_tables(seed, report));
    report.group("time", |report| {
        report.case("first and last place", timed())
    });
    report.finish()
}

/// Searches of a full table that all match at one place.
struct Matches {
    ids: [u64; PLACES],
    next: [u64; PLACES],
    place: usize,
}

impl Matches {
    /// A match at the place leads to the same id again, a match elsewhere or none to 0, which no place has.
    fn at(place: usize) -> Matches {
        let ids = std::array::from_fn(|other| 1_000 + other as u64);
        let mut next = [0; PLACES];
        next[place] = ids[place];
        Matches { ids, next, place }
    }

    /// Makes so many searches; tells whether each of them matched at the place.
    fn hold(&self, searches: usize) -> bool {
        let id = self.ids[self.place];
        search(&self.ids, &self.next, id, searches) == id
    }
}

fn every_place(report: &mut Report) {
    for place in 0..PLACES {
        let matched = Matches::at(place).hold(1_000);
        let outcome = ensure(matched, || "a match is lost".to_string());
        report.case(&format!("place {place}"), outcome);
    }
}

/// Tables of any size with ids that may stand there twice, and searches that may match nowhere or at a place that `next` has no id for.
fn any_tables(seed: u64, report: &mut Report) {
    let mut random = Random::new(seed);
    for case in 0..2_000 {
        let size = random.below(PLACES + 10);
        let ids: Vec<u64> = (0..size).map(|_| random.number(8)).collect();
        let mut any_id = || match size {
            0 => random.next(),
            _ if random.one_in(50) => random.next(),
            _ => random.pick(&ids),
        };
        let first = any_id();
        let next: Vec<u64> = (0..size.min(90)).map(|_| any_id()).collect();
        let searches = random.below(200);
        let found = search(&ids, &next, first, searches);
        let expected = plain_search(&ids, &next, first, searches);
        let outcome = ensure(found == expected, || format!("{found}, and not {expected}"));
        report.case(&format!("table {case}"), outcome);
    }
}

/// What the library's function tells, by Rust's own search.
fn plain_search(ids: &[u64], next: &[u64], first: u64, searches: usize) -> u64 {
    (0..searches).fold(first, |id, _| {
        let place = ids.iter().take(PLACES).position(|other| *other == id);
        place.and_then(|at| next.get(at)).copied().unwrap_or(0)
    })
}

/// Passes where a match at the first place takes at most a quarter of the time of one at the last place, best of some rounds.
fn timed() -> Result<(), String> {
    let matches = [Matches::at(0), Matches::at(PLACES - 1)];
    let mut best = [Duration::MAX; 2];
    for _ in 0..ROUNDS {
        for (matches, best) in matches.iter().zip(&mut best) {
            let start = Instant::now();
            let matched = matches.hold(SEARCHES);
            *best = start.elapsed().min(*best);
            ensure(matched, || "a match is lost".to_string())?;
        }
    }
    let [first, last] = best.map(|time| time.as_secs_f64() * 1e3);
    println!(
        "{SEARCHES} matches, best of {ROUNDS} rounds: {first:.3} ms at place 0, {last:.3} ms at place {}; ratio {:.3}, at most {:.3}",
        PLACES - 1,
        first / last,
        1.0 / f64::from(TIMES)
    );
    ensure(best[0] * TIMES <= best[1], || {
        "a match at the first place takes too long".to_string()
    })
}

//! plain LEAGUE WORD [--conflicts N] [--seconds N] [--laws] [--bound B] [--log FILE]: searches a league without any
//! counts, by `clauses` or by `planes`, over its rows and those of breaks behind them. With `--laws` planes begin with the
//! law of the fewest breaks too. With a bound the rows are those of seasons that cost at most so much, and planes begin as
//! in `prove`.
mod bound_rows;
mod break_counts;
mod circle_method;
mod clause_search;
mod decoding;
mod encoding;
mod floors;
mod league;
mod league_file;
mod league_search;
mod planes;
mod prelude;
mod propagate;
mod refutation;
mod refutation_check;
mod robin_io;
mod robin_watch;
mod rows;

use bound_rows::{bound_system, bound_terms};
use clause_search::{Found, search_watched};
use encoding::{Encoding, encode};
use league::League;
use planes::desk::Desk;
use planes::search::search;
use planes::{Derived, Start};
use prelude::{AllocError, Global, Vec};
use refutation::{Log, StepKind, Verdict, log_text};
use refutation_check::check;
use robin_watch::{News, Watch};
use rows::{Lit, RowStore, Value};
use std::cell::Cell;

/// The processor seconds of this process.
fn seconds() -> f64 {
    let text = std::fs::read_to_string("/proc/self/schedstat").unwrap_or_default();
    text.split(' ').next().and_then(|word| word.parse::<f64>().ok()).unwrap_or(0.0) / 1e9
}

/// Ends a search after so many processor seconds, and counts its conflicts.
struct Clock {
    end: f64,
    conflicts: Cell<u64>,
}

impl Watch for Clock {
    fn is_over(&self, turns: u64) -> bool {
        self.is_over_now(turns)
    }

    fn is_over_now(&self, turns: u64) -> bool {
        self.conflicts.set(turns + 1);
        turns % 64 == 0 && seconds() > self.end
    }

    fn tell(&self, _news: News) {}
}

/// What a search comes to.
enum Outcome {
    Found,
    Refuted(Log),
    Nothing,
}

impl From<Found> for Outcome {
    fn from(found: Found) -> Outcome {
        match found {
            Found::Sat(_) => Outcome::Found,
            Found::Refuted(log) => Outcome::Refuted(log),
            Found::Spent(_) => Outcome::Nothing,
        }
    }
}

impl From<Option<Log>> for Outcome {
    fn from(found: Option<Log>) -> Outcome {
        found.map_or(Outcome::Nothing, Outcome::Refuted)
    }
}

/// How to search, and how far.
struct Way {
    planes: bool,
    laws: bool,
    limit: Option<u64>,
    clock: Clock,
}

/// Adds the rows from a place on to those with which a search by planes begins.
fn add_derived(start: &mut Start, rows: &RowStore, from: usize) -> Result<(), AllocError> {
    for place in from..rows.len() {
        let mut lits = Vec::new(Global);
        for term in rows.terms(place) {
            assert_eq!(term.coef, 1);
            lits.push(term.lit)?;
        }
        start.derived.push(Derived { lits, degree: rows.degree(place), number: place as u64 + 1 })?;
    }
    Ok(())
}

/// Adds the law of the fewest breaks to what a search by planes over so many rows begins with.
fn add_laws(start: &mut Start, league: &League, rows: u64) -> Result<(), AllocError> {
    let venues = false;
    let laws = floors::plane_start::start_of(Global, league, rows + start.steps.len() as u64, venues)?;
    for step in 0..laws.steps.len() {
        match laws.steps.kind(step) {
            StepKind::Clause => start.steps.push(laws.steps.clause(step), laws.steps.hints(step))?,
            StepKind::Linear => start.steps.push_linear(laws.steps.parts(step), laws.steps.divisor(step))?,
        }
    }
    for row in laws.derived {
        start.derived.push(row)?;
    }
    Ok(())
}

/// With what a search of a league by planes begins: the rows of breaks where breaks are bounded.
fn start_of(encoding: &Encoding, laws: bool) -> Result<Start, AllocError> {
    let rows = encoding.rows();
    let mut start = Start { steps: Log::new(Global), derived: Vec::new(Global) };
    if encoding.has_breaks() {
        start.steps = league_search::break_rows::break_sums(Global, encoding)?;
        let longer = league_search::longer::with_sums(Global, rows, encoding.vars(), &start.steps)?;
        add_derived(&mut start, &longer.expect("rows of sums"), rows.len())?;
        if laws {
            add_laws(&mut start, encoding.league(), rows.len() as u64)?;
        }
    }
    Ok(start)
}

/// What a search by clauses decides first, as in `solve`: what the season of the circle method makes true.
fn preferred(encoding: &Encoding) -> Result<Vec<Lit>, AllocError> {
    let season = circle_method::double(Global, encoding.n())?;
    let values = decoding::shadow(Global, encoding, &season)?;
    let mut lits = Vec::new(Global);
    for var in (1..=encoding.vars()).filter(|var| values.value(*var)) {
        lits.push(Lit::new(var, true))?;
    }
    Ok(lits)
}

/// Searches the rows of a league, with those of breaks behind them where breaks are bounded.
fn search_league(encoding: &Encoding, way: &Way) -> Result<Outcome, AllocError> {
    if !way.planes {
        let prefer = preferred(encoding)?;
        return Ok(league_search::search_league(Global, encoding, &prefer, way.limit, &way.clock)?.into());
    }
    search_planes(encoding.rows(), encoding.vars(), start_of(encoding, way.laws)?, way)
}

/// Searches rows by planes, as `refute` of `planes` does, which tells of no values.
fn search_planes(rows: &RowStore, vars: u32, start: Start, way: &Way) -> Result<Outcome, AllocError> {
    let mut desk = Desk::new(Global, rows, vars, start)?;
    if search(Global, &mut desk, vars, way.limit.unwrap_or(u64::MAX), &way.clock)? {
        let log = desk.tools.draft.take(Global);
        assert_eq!(check(Global, rows, vars, &log)?, Verdict::Accepted);
        return Ok(Outcome::Refuted(log));
    }
    if desk.trail.len() < vars as usize {
        return Ok(Outcome::Nothing);
    }
    for place in 0..rows.len() {
        let met = rows.terms(place).iter().filter(|term| desk.trail.value(term.lit) == Value::True);
        assert!(met.map(|term| u64::from(term.coef)).sum::<u64>() >= rows.degree(place));
    }
    Ok(Outcome::Found)
}

/// Searches the rows that say that a season costs at most so much.
fn search_bound(league: &League, bound: u64, way: &Way) -> Result<Outcome, AllocError> {
    let terms = bound_terms(league);
    if way.planes {
        let most = way.limit.unwrap_or(u64::MAX);
        let found = floors::plane_floor(Global, league, bound + 1, terms, most, &way.clock)?;
        return Ok(found.map(|floor| floor.log).into());
    }
    let system = bound_system(Global, league, bound, terms)?;
    Ok(search_watched(Global, system.rows(), system.vars(), &[], way.limit, &way.clock)?.into())
}

/// What a log is, in words.
fn described(log: &Log, text: &[u8]) -> String {
    let sums = (0..log.len()).filter(|step| log.kind(*step) == StepKind::Linear).count();
    format!(", {} steps, {sums} of them sums, {} bytes", log.len(), text.len())
}

fn main() -> Result<(), AllocError> {
    let words: std::vec::Vec<String> = std::env::args().collect();
    let option = |name: &str| words.iter().skip_while(|word| *word != name).nth(1);
    let number = |name: &str| option(name).map(|word| word.parse::<u64>().expect("a number"));
    let league = league_file::league_of(&std::fs::read_to_string(&words[1]).expect("a league"));
    let end = number("--seconds").map_or(f64::MAX, |most| most as f64);
    let way = Way {
        planes: words[2] == "planes",
        laws: words.iter().any(|word| word == "--laws"),
        limit: number("--conflicts"),
        clock: Clock { end, conflicts: Cell::new(0) },
    };
    let bound = number("--bound");
    let outcome = match bound {
        Some(bound) => search_bound(&league, bound, &way)?,
        None => search_league(&encode(Global, &league).expect("few terms"), &way)?,
    };
    let (word, more) = match outcome {
        Outcome::Found => ("found", String::new()),
        Outcome::Nothing => ("nothing", String::new()),
        Outcome::Refuted(log) => {
            let text = log_text(Global, &log)?;
            if let Some(name) = option("--log") {
                let head = bound.map_or(String::new(), |bound| format!("bound {}\n", bound + 1));
                std::fs::write(name, [head.as_bytes(), text.as_slice()].concat()).expect("a file");
            }
            ("refuted", described(&log, &text))
        }
    };
    println!("{word}, {} conflicts, {:.2} s{more}", way.clock.conflicts.get(), seconds());
    Ok(())
}

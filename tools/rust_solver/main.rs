//! Decides traces as `vsc verify` does before its cubes, and prints of each who has decided it and what that took.
#![allow(warnings)]

mod assignment_trail;
mod clause_blocks;
mod clause_database;
mod clause_meaning;
mod counting_proofs;
mod dimacs;
mod formula_numbers;
mod guide;
mod lrat_check;
mod numbered_log;
mod order_sets;
mod proof_log;
mod reducer;
mod restriction;
mod schedule_decode;
mod schedule_text;
mod seat_rounds;
mod settings;
mod shim;
mod short_lists;
mod solver;
mod source_matching;
mod state_model;
mod state_search;
mod text_lines;
mod total_tables;
mod trace_log;
mod trace_semantics;
mod trace_text;
mod var_layout;

use clause_blocks::trace_clauses::TraceClauses;
use dimacs::{Assignment, ClauseList, Lit};
use guide::{guide_to_order, reads_from_table};
use lrat_check::checker::check;
use lrat_check::derivation::Derivation;
use lrat_check::lrat_writer::write_lrat;
use proof_log::{Answer, Attempt, CubeSolver, SearchEnd, SharingLearner};
use reducer::expand::expand;
use reducer::reduced::{Reduced, reduce};
use schedule_decode::decode::schedule_of;
use schedule_text::schedule_writer::write_schedule;
use seat_rounds::ModelSearch;
use seat_rounds::beside::RoundBeside;
use seat_rounds::seats::Seats;
use shim::{Global, setting};
use solver::{PreparedFormula, Search, solve_cube};
use state_model::{StateSearchKind, model_by_states};
use std::collections::HashMap;
use std::env;
use std::fmt;
use std::fs;
use std::process;
use std::sync::Mutex;
use std::sync::atomic::{AtomicUsize, Ordering};
use std::thread;
use trace_semantics::schedule::Schedule;
use trace_semantics::trace::Trace;
use trace_text::trace_reader::read_trace;

/// Seconds that the processor has spent on this program, in all of its threads.
fn processor_seconds() -> f64 {
    const OF_PROCESS: i32 = 2;
    seconds_of(OF_PROCESS)
}

/// Seconds that the processor has spent on this thread.
fn thread_seconds() -> f64 {
    const OF_THREAD: i32 = 3;
    seconds_of(OF_THREAD)
}

fn seconds_of(clock: i32) -> f64 {
    #[repr(C)]
    struct Time {
        seconds: i64,
        nanoseconds: i64,
    }
    unsafe extern "C" {
        fn clock_gettime(clock: i32, time: *mut Time) -> i32;
    }
    let mut time = Time { seconds: 0, nanoseconds: 0 };
    unsafe { clock_gettime(clock, &mut time) };
    time.seconds as f64 + time.nanoseconds as f64 * 1e-9
}

/// What is reported of a trace.
struct Report {
    found_by: String,
    /// Conflicts of all that is searched before the seats, and how many of these are of the search that is handed on.
    first: u64,
    handed_on: u64,
    /// Conflicts of each seat in the rounds.
    seats: Vec<u64>,
    rounds: u64,
    /// Seconds of the slowest seat of each round, in sum: what the rounds take where each seat has a processor.
    longest: f64,
    /// The phases that took place, with the seconds of each.
    phases: Vec<(&'static str, f64)>,
    /// When the phase at hand began.
    begun: f64,
    /// Steps of the derivation, as they were learned and as they are trimmed.
    steps: Option<(u64, u64)>,
}

impl Report {
    fn new() -> Report {
        Report {
            found_by: "none".to_string(),
            first: 0,
            handed_on: 0,
            seats: Vec::new(),
            rounds: 0,
            longest: 0.0,
            phases: Vec::new(),
            begun: processor_seconds(),
            steps: None,
        }
    }

    /// Ends a phase. The next one begins.
    fn end(&mut self, phase: &'static str) {
        let now = processor_seconds();
        self.phases.push((phase, now - self.begun));
        self.begun = now;
    }

    fn line(&self, name: &str, verdict: Verdict, checked: &str) -> String {
        let each: Vec<String> = self.seats.iter().map(u64::to_string).collect();
        let seats = if each.is_empty() { "none".to_string() } else { each.join("+") };
        let sum: u64 = self.seats.iter().sum();
        let each: Vec<String> = self.phases.iter().map(|(phase, seconds)| format!("{phase} {seconds:.2}")).collect();
        let phases = each.join(" ");
        let steps = self.steps.map_or("none".to_string(), |(learned, trimmed)| format!("{learned} -> {trimmed}"));
        let (found_by, first, handed_on, rounds, longest) = (&self.found_by, self.first, self.handed_on, self.rounds, self.longest);
        format!(
            "{name}: {found_by}, {verdict}, first {first} (handed on {handed_on}), seats {seats} = {sum}, rounds {rounds}, longest {longest:.2}, seconds {phases}, \
             derivation {steps}, {checked}"
        )
    }
}

#[derive(Clone, Copy, PartialEq, Eq)]
enum Verdict {
    Consistent,
    Inconsistent,
    Open,
}

impl fmt::Display for Verdict {
    fn fmt(&self, f: &mut fmt::Formatter<'_>) -> fmt::Result {
        f.write_str(match self {
            Verdict::Consistent => "CONSISTENT",
            Verdict::Inconsistent => "INCONSISTENT",
            Verdict::Open => "OPEN",
        })
    }
}

/// The verdict that follows from what is known of the formula, before its cubes over this many variables are searched.
fn verdict_of(prepared: &PreparedFormula, splits: usize) -> Verdict {
    let has_no_cube_left = splits > 0 && prepared.refuted_cubes.len() == 1 << splits;
    if prepared.model.is_some() {
        Verdict::Consistent
    } else if prepared.refutation.is_some() || has_no_cube_left {
        Verdict::Inconsistent
    } else {
        Verdict::Open
    }
}

/// The cube of the leaf that stands for the seat of this number, in a full tree of this depth.
fn leaf_cube(number: usize, depth: u32) -> Vec<Lit> {
    let literal = |place: u32| {
        let literal = Lit::positive(place + 1);
        let is_second = number >> (depth - 1 - place) & 1 == 1;
        if is_second { literal.negated() } else { literal }
    };
    (0..depth).map(literal).collect()
}

/// Runs a round of all seats, each of which is taken by the next thread that is free. Returns the seconds of the slowest.
fn run_round<Q: CubeSolver + Sync>(round: &Q, count: usize) -> f64 {
    let depth = count.next_power_of_two().trailing_zeros();
    let next = AtomicUsize::new(0);
    let longest = Mutex::new(0.0_f64);
    let work = || {
        loop {
            let number = next.fetch_add(1, Ordering::SeqCst);
            if number >= count {
                break;
            }
            let begun = thread_seconds();
            round.solve(Global, &leaf_cube(number, depth), 0).expect("memory");
            let seconds = thread_seconds() - begun;
            let mut longest = longest.lock().expect("no panic");
            *longest = longest.max(seconds);
        }
    };
    thread::scope(|scope| {
        for _ in 1..setting!("THREADS", usize, 1) {
            scope.spawn(work);
        }
        work();
    });
    longest.into_inner().expect("no panic")
}

/// The lowest seat that has an answer.
fn winner_of<S: SharingLearner>(seats: &mut Seats<S>) -> Option<usize> {
    let has_answer = |end: Option<SearchEnd>| matches!(end, Some(SearchEnd::Satisfied | SearchEnd::Refuted));
    seats.round.seats.iter_mut().position(|slot| has_answer(slot.get_mut().end))
}

/// Searches that go on in rounds, as `SeatSearch` has them, but that the budget may be that of each seat or of all together.
struct SeatSearch<S: SharingLearner> {
    seats: Seats<S>,
    left: u64,
    sharers: u64,
    budget: u64,
}

impl<S: SharingLearner + Send> SeatSearch<S> {
    fn new(searches: shim::Vec<Attempt<S>>, budget: u64, report: &mut Report) -> SeatSearch<S> {
        let count = searches.len();
        let sharers = if setting!("OWN_BUDGETS", u32, 0) == 0 { count as u64 } else { 1 };
        let mut seats = Seats::new(Global, searches).expect("memory");
        report.seats = vec![0; count];
        let left = budget.saturating_sub(seats.additions());
        SeatSearch { seats, left, sharers, budget }
    }

    /// Begins a round of these seats, if there are conflicts left for each.
    fn begin_round(&mut self, most: u64, sharers: u64) -> u64 {
        let sharers = if self.sharers == 1 { 1 } else { sharers };
        let conflicts = most.min(self.left / sharers);
        self.left -= conflicts * sharers;
        self.seats.begin_round(conflicts).expect("memory");
        conflicts
    }

    /// Reports the round that has ended, and returns its answer.
    fn end_round(&mut self, report: &mut Report) -> Option<Answer> {
        report.rounds += 1;
        for (number, slot) in self.seats.round.seats.iter_mut().enumerate() {
            report.seats[number] += slot.get_mut().attempt.log.additions();
        }
        if let Some(winner) = winner_of(&mut self.seats) {
            report.found_by = format!("seat {winner}");
        }
        let answer = self.seats.answer(setting!("MOST_STEPS", u64, self.budget)).expect("memory")?;
        if winner_of(&mut self.seats).is_none() {
            report.found_by = "counting after a round".to_string();
        }
        Some(answer)
    }

    /// Goes on for at most this many rounds.
    fn go_on(&mut self, rounds: u64, report: &mut Report) -> Option<Answer> {
        for _ in 0..rounds {
            if self.begin_round(setting!("ROUND_CONFLICTS", u64, 100), self.sharers) == 0 {
                return Some(Answer::Open);
            }
            report.longest += run_round(&self.seats.round, report.seats.len());
            let answer = self.end_round(report);
            if answer.is_some() {
                return answer;
            }
        }
        None
    }

    /// Does what `SeatSearch::look_beside` does.
    fn look_beside<M: ModelSearch + Sync>(&mut self, models: M, report: &mut Report) -> Option<Answer> {
        let count = report.seats.len();
        self.begin_round(setting!("ROUND_CONFLICTS", u64, 100) * models.rounds(), (count - models.ways()) as u64);
        let mut beside = RoundBeside::new(Global, &self.seats.round, models).expect("memory");
        report.longest += run_round(&beside, count);
        let found = beside.model(Global, count).expect("memory");
        let answer = self.end_round(report);
        match found {
            Some(model) => {
                report.found_by = "states beside".to_string();
                Some(Answer::Model(model))
            }
            None => answer,
        }
    }
}

/// Searches of states of these kinds, as `trace_decision` has them.
struct StateSearches<'a> {
    reduced: &'a Reduced,
    clauses: &'a TraceClauses,
    kinds: &'a [StateSearchKind],
    rounds: u64,
}

impl ModelSearch for StateSearches<'_> {
    fn ways(&self) -> usize {
        self.kinds.len()
    }

    fn rounds(&self) -> u64 {
        self.rounds
    }

    fn look(&self, alloc: Global, way: usize) -> Result<Option<Assignment>, shim::AllocError> {
        model_by_states(alloc, self.reduced.kept(), self.clauses, self.kinds[way])
    }
}

/// A model by a search of states of this name, if there is one. The phase has the same name.
fn model_of(reduced: &Reduced, clauses: &TraceClauses, kind: StateSearchKind, name: &'static str, report: &mut Report) -> Option<Answer> {
    let model = model_by_states(Global, reduced.kept(), clauses, kind).expect("memory");
    report.end(name);
    let model = model?;
    report.found_by = format!("{name} search");
    Some(Answer::Model(model))
}

/// Does what `search_on` does.
fn search_on<'a>(
    reduced: &Reduced,
    clauses: &TraceClauses,
    prepared: &PreparedFormula<'a>,
    first: Attempt<Search<'a>>,
    budget: u64,
    report: &mut Report,
) -> Answer {
    let found = model_of(reduced, clauses, StateSearchKind::Narrow, "narrow", report);
    if let Some(answer) = found {
        return answer;
    }
    shim::note_steps(0, 0);
    let mut seats = SeatSearch::new(prepared.begin_seats(Global, first).expect("memory"), budget, report);
    let found = seats.go_on(setting!("EARLY_ROUNDS", u64, 8), report);
    report.end("early");
    // If the conflicts are used up, a schedule is looked for nevertheless.
    if let Some(answer) = found.filter(|answer| !matches!(answer, Answer::Open)) {
        return answer;
    }
    let rounds = setting!("BESIDE_BROAD", u64, 5);
    let broad = StateSearches { reduced, clauses, kinds: &[StateSearchKind::Broad, StateSearchKind::Spendthrift], rounds };
    let found = seats.look_beside(broad, report);
    report.end("broad");
    let found = found.or_else(|| seats.go_on(setting!("LAST_ROUNDS", u64, 80), report));
    report.end("last");
    if let Some(answer) = found {
        return answer;
    }
    let rounds = setting!("BESIDE_PATIENT", u64, 10);
    let patient = StateSearches { reduced, clauses, kinds: &[StateSearchKind::Patient], rounds };
    let found = seats.look_beside(patient, report);
    report.end("patient");
    let answer = found.or_else(|| seats.go_on(budget, report));
    report.end("seats");
    answer.unwrap_or(Answer::Open)
}

/// Does what `search_before_cubes` does.
fn search_before_cubes(reduced: &Reduced, clauses: &TraceClauses, prepared: &mut PreparedFormula, budget: u64, report: &mut Report) {
    let layout = clauses.layout();
    let splits = layout.first_splits(Global, setting!("SPLIT", usize, 3)).expect("memory");
    prepared.count_whole(Global, splits.len(), budget).expect("memory");
    let is_counted = prepared.refutation.is_some();
    let open = prepared.search_whole(Global, splits.as_slice(), budget).expect("memory");
    report.first = prepared.conflicts();
    report.end("first");
    let Some(first) = open else {
        if verdict_of(prepared, splits.len()) != Verdict::Open {
            report.found_by = if is_counted { "counting" } else { "first" }.to_string();
        }
        return;
    };
    report.handed_on = first.log.additions();
    let answer = search_on(reduced, clauses, prepared, first, budget, report);
    prepared.know(splits.len(), answer);
}

/// Searches the formula itself by one search, as `--split 0 --workers 1` does.
fn search_alone(prepared: &mut PreparedFormula, budget: u64, report: &mut Report) {
    let answer = solve_cube(Global, prepared, &[], budget).expect("memory");
    report.first = prepared.conflicts();
    if prepared.know(0, answer) {
        report.found_by = "first".to_string();
    }
    report.end("first");
}

/// The steps of what is refuted, as they were learned and as they are trimmed. Those of a count, and of cubes, are not trimmed here. A derivation of
/// seats is also reported if it is too long.
fn steps_of(prepared: &PreparedFormula, verdict: Verdict, rounds: u64) -> Option<(u64, u64)> {
    let count = |derivation: &Derivation| derivation.steps().len() as u64;
    let (learned, trimmed) = shim::noted_steps();
    match (verdict, &prepared.refutation) {
        (Verdict::Inconsistent, Some(found)) if count(&found.derivation) == trimmed => Some((learned, trimmed)),
        (Verdict::Inconsistent, Some(found)) => Some((count(&found.derivation), count(&found.derivation))),
        (Verdict::Inconsistent, None) => {
            let sum = prepared.refuted_cubes.iter().map(|found| count(&found.derivation)).sum();
            Some((sum, sum))
        }
        (Verdict::Open, _) if rounds > 0 && learned > 0 => Some((learned, trimmed)),
        _ => None,
    }
}

/// Returns whether the schedule has each operation once and in the order of its process, and each reads what its location holds.
fn is_legal(trace: &Trace, schedule: &Schedule) -> bool {
    let mut memory: HashMap<&[u8], u64> = trace.initial().iter().map(|(location, value)| (location.as_bytes(), *value)).collect();
    let processes = trace.processes();
    let mut places = vec![0; processes.len()];
    for name in schedule.names() {
        let Some(number) = processes.iter().position(|process| process.name.as_bytes() == name.process.as_bytes()) else {
            return false;
        };
        let place = places[number];
        let Some(operation) = processes[number].operations.as_slice().get(place) else {
            return false;
        };
        places[number] += 1;
        let location = operation.location().as_bytes();
        let reads_what_is_held = operation.value_read().is_none() || operation.value_read() == memory.get(location).copied();
        if name.place as usize != place + 1 || !reads_what_is_held {
            return false;
        }
        if let Some(left) = operation.written_value() {
            memory.insert(location, left);
        }
    }
    let is_whole = processes.iter().zip(&places).all(|(process, place)| process.operations.as_slice().len() == *place);
    is_whole && trace.final_values().iter().all(|(location, value)| memory.get(location.as_bytes()) == Some(value))
}

/// The text of what is found, and what a check says of it.
struct Found {
    ending: &'static str,
    text: shim::Vec<u8>,
    checked: &'static str,
}

fn found_model(trace: &Trace, reduced: &Reduced, clauses: &TraceClauses, model: &Assignment) -> Found {
    let kept = schedule_of(Global, reduced, clauses.layout(), model).expect("memory");
    let whole = expand(Global, reduced, &kept).expect("memory");
    let checked = if clauses.eval(model).is_err() {
        "NO MODEL"
    } else if is_legal(trace, &whole) {
        "schedule legal"
    } else {
        "SCHEDULE NOT LEGAL"
    };
    Found { ending: "schedule", text: write_schedule(Global, &whole).expect("memory"), checked }
}

fn found_derivation(clauses: &TraceClauses, cube: &[Lit], derivation: &Derivation) -> Found {
    let is_accepted = setting!("CHECK", u32, 1) == 0 || check(Global, clauses, cube, derivation).is_ok();
    let checked = if is_accepted { "derivation accepted" } else { "DERIVATION REFUSED" };
    Found { ending: "lrat", text: write_lrat(Global, derivation).expect("memory"), checked }
}

/// Looks at what is found, and writes it if a folder is given. Of cubes the first that the checker refuses is written, or else the last.
fn look_at(trace: &Trace, reduced: &Reduced, clauses: &TraceClauses, prepared: &PreparedFormula, verdict: Verdict, name: &str) -> &'static str {
    let found = match (&prepared.model, &prepared.refutation) {
        _ if verdict == Verdict::Open => return "nothing to check",
        (Some(model), _) => found_model(trace, reduced, clauses, model),
        (None, Some(found)) => found_derivation(clauses, &[], &found.derivation),
        (None, None) => {
            let mut all = prepared.refuted_cubes.iter().map(|it| found_derivation(clauses, it.cube.as_slice(), &it.derivation)).peekable();
            let mut last = all.next().expect("a cube");
            while last.checked == "derivation accepted" && all.peek().is_some() {
                last = all.next().expect("a cube");
            }
            last
        }
    };
    let folder = shim::given_setting("OUT", String::new());
    if !folder.is_empty() {
        fs::write(format!("{folder}/{name}.{}", found.ending), found.text.as_slice()).expect("a folder");
    }
    if setting!("CHECK", u32, 1) == 0 { "not checked" } else { found.checked }
}

/// Decides the trace in this file, and returns the line of it.
fn decide(file: &str) -> String {
    let mut report = Report::new();
    let text = fs::read(file).expect("a file");
    let Ok(trace) = read_trace(Global, &text) else {
        return format!("{file}: no trace");
    };
    let Ok(reduced) = reduce(Global, &trace) else {
        return format!("{file}: too large");
    };
    let clauses = TraceClauses::of(Global, &reduced).expect("memory");
    let reads_from = reads_from_table(Global, &clauses).expect("memory");
    let encoding = guide_to_order(&clauses).with_reads_from(&reads_from);
    let mut prepared = PreparedFormula::of(Global, &clauses, encoding).expect("memory");
    report.end("clauses");
    let budget = setting!("BUDGET", u64, 100_000);
    let splits = clauses.layout().first_splits(Global, setting!("SPLIT", usize, 3)).expect("memory").len();
    if splits == 0 {
        search_alone(&mut prepared, budget, &mut report);
    } else {
        search_before_cubes(&reduced, &clauses, &mut prepared, budget, &mut report);
    }
    let name = file.rsplit('/').next().unwrap_or(file).trim_end_matches(".vsc");
    let verdict = verdict_of(&prepared, splits);
    report.steps = steps_of(&prepared, verdict, report.rounds);
    let checked = look_at(&trace, &reduced, &clauses, &prepared, verdict, name);
    report.end("check");
    report.line(name, verdict, checked)
}

fn main() {
    let words: Vec<String> = env::args().skip(1).collect();
    let name_of = |word: &str| word.split_once('=').map(|(name, value)| (name.to_string(), value.to_string()));
    let is_setting = |name: &str| settings::SETTINGS.iter().any(|(known, _)| *known == name);
    let mut files = Vec::new();
    for word in &words {
        match name_of(word) {
            Some((name, value)) if is_setting(&name) => shim::give_setting(&name, &value),
            Some((name, _)) if !name.contains(['/', '.']) => {
                eprintln!("no setting is {name}");
                process::exit(2);
            }
            _ => files.push(word),
        }
    }
    if files.is_empty() {
        for (name, value) in settings::SETTINGS {
            println!("{name}={value}");
        }
    }
    for file in files {
        println!("{}", decide(file));
    }
}

//! Searches a trace for a schedule, and makes the certificate of a refutation, by the search crates alone.
#![allow(warnings)]

mod beam_search;
mod closed_rows;
mod conflict_analysis;
mod local_reads;
mod numbered_log;
mod order_certificate;
mod order_propagation;
mod placing_walk;
mod possible_sources;
mod schedule_search;
mod shim;
mod source_counting;
mod total_tables;

use local_reads::ReducedLog;
use numbered_log::{Budget, LocationId, NumberedLog, NumberedOrigin, Operation, OperationId, ProcessId, ProcessPlace};
use order_certificate::{
    certificate_of_conflict, certificate_of_learning, certificate_of_takers, LogNames, NamedPlace, OrderCertificate,
};
use order_propagation::Propagation;
use schedule_search::{ScheduleSearch, SearchEnding};
use shim::Global;
use std::collections::HashMap;
use std::env;
use std::fs;
use std::time::Instant;

/// The looks that are one step in a log of this size, as in `survey`.
fn looks_of_step(log: &NumberedLog) -> u64 {
    4 + u64::from(log.count()) * u64::from(log.processes()) / (1 << 22)
}

const STEPS: u64 = 1_000_000_000;

/// A trace as a log, with its names by number.
struct Trace<'a> {
    log: NumberedLog,
    processes: Vec<&'a str>,
    locations: Vec<&'a str>,
}

fn number(word: &str) -> u64 {
    word.parse().expect("a number")
}

/// The operation of a line's words, on the location of this number.
fn operation(words: &[&str], location: LocationId) -> Operation {
    let (reads, writes) = (words[0] != "W", words[0] != "R");
    let first = number(words[2]);
    let left = if words[0] == "U" { number(words[3]) } else { first };
    Operation {
        process: ProcessId::FIRST,
        place: ProcessPlace::START,
        location,
        reads,
        writes,
        needed: if reads { first } else { 0 },
        left: if writes { left } else { 0 },
        origin: NumberedOrigin::Any,
    }
}

/// The locations on which operations work, or that have final values, in the order in which they come.
fn locations_of(text: &str) -> Vec<&str> {
    let (mut locations, mut numbers) = (Vec::new(), HashMap::new());
    for line in text.lines() {
        let words: Vec<&str> = line.split_whitespace().collect();
        if words.len() > 1 && ["R", "W", "U", "final"].contains(&words[0]) && numbers.insert(words[1], ()).is_none() {
            locations.push(words[1]);
        }
    }
    locations
}

impl<'a> Trace<'a> {
    fn of(text: &'a str) -> Trace<'a> {
        let locations = locations_of(text);
        let numbers: HashMap<&str, LocationId> = locations.iter().copied().zip((0..).map(LocationId::new)).collect();
        let mut log = NumberedLog::new(Global, locations.len() as u32).expect("memory");
        let mut processes = Vec::new();
        for line in text.lines() {
            let words: Vec<&str> = line.split_whitespace().collect();
            match words.first() {
                Some(&"init") => {
                    if let Some(&location) = numbers.get(words[1]) {
                        log.set_initial(location, Some(number(words[2])));
                    }
                }
                Some(&"final") => log.set_last(numbers[words[1]], Some(number(words[2]))),
                Some(&"proc") => {
                    if !processes.is_empty() {
                        log.end_process().expect("memory");
                    }
                    processes.push(words[1]);
                }
                Some(&"R" | &"W" | &"U") => log.add_operation(operation(&words, numbers[words[1]])).expect("memory"),
                _ => {}
            }
        }
        if !processes.is_empty() {
            log.end_process().expect("memory");
        }
        Trace { log, processes, locations }
    }

    fn name(&self, number: OperationId) -> String {
        let operation = self.log.operation(number);
        format!("{}.{}", self.processes[operation.process.number() as usize], operation.place.number())
    }

    /// The operations that the file names, by number.
    fn hint(&self, file: Option<&String>) -> shim::Vec<OperationId> {
        let mut hint = shim::Vec::new(Global);
        let Some(file) = file.filter(|word| *word != "-") else {
            return hint;
        };
        let numbers: HashMap<String, OperationId> = self.log.operation_ids().map(|at| (self.name(at), at)).collect();
        for line in fs::read_to_string(file).expect("a hint").lines() {
            if let Some(&at) = numbers.get(line.trim()) {
                hint.push(at).expect("memory");
            }
        }
        hint
    }

    /// The text of the certificate, of the log that was made smaller.
    fn text(&self, reduced: &ReducedLog, certificate: &OrderCertificate) -> shim::Vec<u8> {
        let kept: Vec<OperationId> = reduced.log.operation_ids().collect();
        let mut names = LogNames {
            processes: shim::Vec::new(Global),
            locations: shim::Vec::new(Global),
            operations: shim::Vec::new(Global),
        };
        for name in &self.processes {
            names.processes.push(name.as_bytes()).expect("memory");
        }
        for name in &self.locations {
            names.locations.push(name.as_bytes()).expect("memory");
        }
        for number in reduced.in_whole(Global, &kept).expect("memory").as_slice() {
            let Operation { process, place, .. } = self.log.operation(*number);
            names.operations.push(NamedPlace { process, place }).expect("memory");
        }
        certificate.text(Global, &names).expect("memory")
    }
}

/// The certificate of what the search has refuted, as in `survey`.
fn certificate_of(reduced: &ReducedLog, order: &mut Propagation, search: &ScheduleSearch) -> Option<OrderCertificate> {
    if let Some(learned) = search.learned() {
        let mut budget = order.budget();
        let certificate = certificate_of_learning(Global, &reduced.log, learned, search.core(), &mut budget);
        order.set_budget(budget);
        return certificate.expect("memory");
    }
    match search.takers() {
        Some(takers) => certificate_of_takers(Global, order, takers).expect("memory"),
        None => certificate_of_conflict(Global, order).expect("memory"),
    }
}

fn main() {
    let words: Vec<String> = env::args().collect();
    let text = fs::read_to_string(&words[1]).expect("a trace");
    let steps = words.get(2).map_or(STEPS, |word| number(word));
    let trace = Trace::of(&text);
    let hint = trace.hint(words.get(3));
    let looks = looks_of_step(&trace.log);
    let mut budget = Budget::new(steps * looks);
    let kept = budget.share(budget.left() / 4);
    let begun = Instant::now();
    let reduced = ReducedLog::of(Global, &trace.log).expect("memory");
    let hint = reduced.kept_of(Global, &trace.log, hint.as_slice()).expect("memory");
    let mut order = Propagation::new(Global, &reduced.log, budget).expect("memory");
    let mut search = ScheduleSearch::new(Global);
    let ending = search.run(Global, &mut order, hint.as_slice()).expect("memory");
    let word = match ending {
        SearchEnding::Scheduled => "scheduled",
        SearchEnding::Refuted => "refuted",
        SearchEnding::Unknown => "unknown",
    };
    let seconds = begun.elapsed().as_secs_f64();
    let core = search.core().map_or(String::new(), |core| format!(", a core of {}", core.len()));
    println!("{word}{core}, {} of {} placed, {seconds:.2} s", search.most_placed(), reduced.log.count());
    if ending == SearchEnding::Refuted {
        let mut budget = order.budget();
        budget.give_back(kept);
        order.set_budget(budget);
        let before = budget.left() / looks;
        let certificate = certificate_of(&reduced, &mut order, &search);
        let said = certificate.map(|certificate| trace.text(&reduced, &certificate));
        let is_counted = search.learned().is_none() && search.takers().is_none() && !order.has_conflict();
        let bytes = match &said {
            Some(text) => format!("a certificate of {} bytes", text.len()),
            None if is_counted => "refuted by counting alone, of which `survey` makes the certificate beforehand".to_string(),
            None => "no certificate".to_string(),
        };
        let left = order.budget().left() / looks;
        println!("{bytes}, {before} steps left before and {left} after, {:.2} s", begun.elapsed().as_secs_f64() - seconds);
        if let (Some(text), Some(file)) = (said, words.get(4)) {
            fs::write(file, text.as_slice()).expect("a file");
        }
    }
}

// Runs the order engine of `survey`, translated to Rust by bench/growth, on logs in the words of traces, and prints for each a line: its name, the
// answer, the least milliseconds of a processor of so many runs, and the steps of one.
//
//     growth RUNS LOG..
//
// A schedule is judged. The words `before` and `from` are not read.
#![allow(unused_imports, dead_code)]

/// What the crates take of Rattle's library, in the words of Rust's: a call that allocates is given the allocator, and answers a `Result`.
#[macro_use]
pub mod kit {
    #[derive(Clone, Copy)]
    pub struct Global;

    #[derive(Debug)]
    pub struct AllocError;

    pub struct Vec<T>(std::vec::Vec<T>);

    impl<T> Vec<T> {
        pub fn new(_alloc: Global) -> Vec<T> {
            Vec(std::vec::Vec::new())
        }
        pub fn with_capacity(_alloc: Global, count: usize) -> Result<Vec<T>, AllocError> {
            Ok(Vec(std::vec::Vec::with_capacity(count)))
        }
        #[inline(always)]
        pub fn push(&mut self, entry: T) -> Result<(), AllocError> {
            self.0.push(entry);
            Ok(())
        }
        #[inline(always)]
        pub fn pop(&mut self) -> Option<T> {
            self.0.pop()
        }
        pub fn clear(&mut self) {
            self.0.clear()
        }
        #[inline(always)]
        pub fn len(&self) -> usize {
            self.0.len()
        }
        pub fn is_empty(&self) -> bool {
            self.0.is_empty()
        }
        #[inline(always)]
        pub fn as_slice(&self) -> &[T] {
            self.0.as_slice()
        }
        #[inline(always)]
        pub fn as_mut_slice(&mut self) -> &mut [T] {
            self.0.as_mut_slice()
        }
    }

    impl<T: Clone> Vec<T> {
        pub fn from_slice(_alloc: Global, entries: &[T]) -> Result<Vec<T>, AllocError> {
            Ok(Vec(entries.to_vec()))
        }
        pub fn filled(_alloc: Global, entry: T, count: usize) -> Result<Vec<T>, AllocError> {
            Ok(Vec(vec![entry; count]))
        }
    }

    impl<'a, T> IntoIterator for &'a Vec<T> {
        type Item = &'a T;
        type IntoIter = std::slice::Iter<'a, T>;
        fn into_iter(self) -> Self::IntoIter {
            self.0.iter()
        }
    }

    #[macro_export]
    macro_rules! filled {
        ($alloc:expr; $entry:expr; $count:expr) => {
            crate::kit::Vec::filled($alloc, $entry, $count)
        };
    }
}

pub mod closed_rows;
pub mod conflict_analysis;
pub mod local_reads;
pub mod numbered_log;
pub mod order_propagation;
pub mod placing_walk;
pub mod possible_sources;
pub mod schedule_search;
pub mod source_counting;
pub mod total_tables;

use kit::Global;
use local_reads::ReducedLog;
use numbered_log::{Budget, NumberedLog, NumberedOrigin, Operation};
use order_propagation::Propagation;
use schedule_search::{ScheduleSearch, SearchEnding};
use std::collections::HashMap;

/// More looks than any of these logs takes.
const BUDGET: u64 = 1 << 40;

fn log_of(text: &str) -> NumberedLog {
    let mut locations: HashMap<&str, u32> = HashMap::new();
    let words: std::vec::Vec<std::vec::Vec<&str>> =
        text.lines().map(|line| line.split_whitespace().collect()).collect();
    for line in &words {
        if line.len() > 2 && ["init", "final", "R", "W", "U"].contains(&line[0]) {
            let number = locations.len() as u32;
            locations.entry(line[1]).or_insert(number);
        }
    }
    let mut log = NumberedLog::new(Global, locations.len() as u32).unwrap();
    let mut has_process = false;
    for line in words.iter().filter(|line| line.len() > 1) {
        let number = |place: usize| line[place].parse::<u64>().unwrap();
        let location = *locations.get(line[1]).unwrap_or(&0);
        match line[0] {
            "init" => log.set_initial(location, Some(number(2))),
            "final" => log.set_last(location, Some(number(2))),
            "proc" if has_process => log.end_process().unwrap(),
            "proc" => has_process = true,
            "R" | "W" | "U" => {
                let (reads, writes) = (line[0] != "W", line[0] != "R");
                let needed = if reads { number(2) } else { 0 };
                let left = if writes { number(line.len() - 1) } else { 0 };
                let origin = NumberedOrigin::Any;
                log.add_operation(Operation { process: 0, place: 0, location, reads, writes, needed, left, origin }).unwrap();
            }
            _ => {}
        }
    }
    log.end_process().unwrap();
    log
}

fn is_legal(log: &NumberedLog, schedule: &[u32]) -> bool {
    let mut held: std::vec::Vec<Option<u64>> = (0..log.locations()).map(|location| log.initial(location)).collect();
    let mut places = vec![0; log.processes() as usize];
    for number in schedule {
        let operation = log.operation(*number);
        places[operation.process as usize] += 1;
        if places[operation.process as usize] != operation.place {
            return false;
        }
        let location = operation.location as usize;
        if operation.reads && held[location] != Some(operation.needed) {
            return false;
        }
        if operation.writes {
            held[location] = Some(operation.left);
        }
    }
    let is_whole = schedule.len() == log.count() as usize;
    is_whole && (0..log.locations()).all(|location| log.last(location).is_none() || log.last(location) == held[location as usize])
}

/// The answer, and the steps that it took.
fn survey(log: &NumberedLog) -> (&'static str, u64) {
    let reduced = ReducedLog::of(Global, log).ok().unwrap();
    let mut order = Propagation::new(Global, &reduced.log, Budget::new(BUDGET)).ok().unwrap();
    let mut search = ScheduleSearch::new(Global);
    let answer = match search.run(Global, &mut order, &[]).ok().unwrap() {
        SearchEnding::Scheduled => {
            let schedule = reduced.expand(Global, log, search.schedule()).ok().unwrap();
            assert!(is_legal(log, schedule.as_slice()), "a schedule that is not legal");
            "CONSISTENT"
        }
        SearchEnding::Refuted => "INCONSISTENT",
        SearchEnding::Unknown => "UNKNOWN",
    };
    (answer, BUDGET - order.budget().left())
}

#[repr(C)]
struct Time {
    seconds: i64,
    nanoseconds: i64,
}

extern "C" {
    fn clock_gettime(clock: i32, time: *mut Time) -> i32;
}

/// The milliseconds of a processor that this process has taken.
fn milliseconds() -> f64 {
    let mut time = Time { seconds: 0, nanoseconds: 0 };
    unsafe { clock_gettime(2, &mut time) };
    time.seconds as f64 * 1e3 + time.nanoseconds as f64 / 1e6
}

fn main() {
    let words: std::vec::Vec<String> = std::env::args().collect();
    for path in &words[2..] {
        let log = log_of(&std::fs::read_to_string(path).unwrap());
        let mut least = f64::MAX;
        let mut found = ("", 0);
        for _ in 0..words[1].parse::<u32>().unwrap() {
            let begin = milliseconds();
            found = survey(&log);
            least = least.min(milliseconds() - begin);
        }
        println!("{path} {} {least:.2} {}", found.0, found.1);
    }
}

//! The reference and the engine under test play the same generated scripts and must answer
//! alike, by today's rules everywhere and by the circular's as far as they go; the engine's
//! answers must also keep the books of both ends.
//!
//! `LONG=n` plays n times as many scripts, `SEED=s` begins with another seed than 0.

use reference::compare::circular::{self, Extent};
use reference::compare::Difference;
use reference::generate::{self, Kind};
use reference::line::play as engine;
use reference::script::play as reference;
use reference::seeds::seeds;
use reference::{books, compare};
use std::collections::BTreeMap;
use std::sync::atomic::{AtomicUsize, Ordering};
use std::sync::Mutex;
use std::thread;

const THREADS: usize = 2;
/// More would say nothing new.
const MOST_FAILURES: usize = 3;

/// The first answer of the engine that is not as one set of rules has it.
type Differ = fn(&[u8]) -> Option<Difference>;

#[derive(Clone, Copy)]
struct Task {
    kind: Kind,
    seed: u64,
}

/// What the threads have come to.
#[derive(Default)]
struct Outcome {
    scripts: BTreeMap<String, u64>,
    /// Scripts in which no answer beside the circular's was left out, and the others.
    to_the_end: u64,
    up_to_an_answer: u64,
    books: u64,
    reports: u64,
    named: u64,
    ahead: u64,
    settled: u64,
    failures: Vec<String>,
}

#[test]
fn the_engine_answers_like_the_reference() {
    let tasks = tasks();
    let next = AtomicUsize::new(0);
    let outcome = Mutex::new(Outcome::default());
    thread::scope(|scope| {
        for _ in 0..THREADS {
            scope.spawn(|| work(&tasks, &next, &outcome));
        }
    });
    let outcome = outcome.into_inner().unwrap();
    println!("scripts {:?}", outcome.scripts);
    println!(
        "with the circular's: {} to the end, {} up to an answer left out",
        outcome.to_the_end, outcome.up_to_an_answer
    );
    println!(
        "books of {} scripts: {} reports, {} name a lot, {} lines ahead, {} lots settled",
        outcome.books, outcome.reports, outcome.named, outcome.ahead, outcome.settled
    );
    assert!(
        outcome.failures.is_empty(),
        "{}",
        outcome.failures.join("\n\n")
    );
    assert!(tasks.len() >= 2_000 && outcome.books >= 1_000);
    assert!(outcome.to_the_end >= 2_500 && outcome.up_to_an_answer >= 1_000);
    assert!(outcome.named >= 1_000 && outcome.ahead >= 1_000 && outcome.settled >= 1_000);
}

fn tasks() -> Vec<Task> {
    let of_kind = |kind: Kind| seeds(kind.scripts()).map(move |seed| Task { kind, seed });
    Kind::ALL.into_iter().flat_map(of_kind).collect()
}

fn work(tasks: &[Task], next: &AtomicUsize, outcome: &Mutex<Outcome>) {
    while let Some(task) = tasks.get(next.fetch_add(1, Ordering::Relaxed)) {
        let script = generate::script(task.kind, task.seed);
        let compared = compared(*task, &script);
        let checked = booked(*task, &script);
        let mut outcome = outcome.lock().unwrap();
        *outcome
            .scripts
            .entry(format!("{:?}", task.kind))
            .or_default() += 1;
        note_extent(&mut outcome, compared);
        note_books(&mut outcome, checked);
        if outcome.failures.len() >= MOST_FAILURES {
            return;
        }
    }
}

fn note_extent(outcome: &mut Outcome, compared: Result<Extent, String>) {
    match compared {
        Err(failure) => outcome.failures.push(failure),
        Ok(Extent::ToTheEnd) => outcome.to_the_end += 1,
        Ok(Extent::UpTo(_)) => outcome.up_to_an_answer += 1,
    }
}

fn note_books(outcome: &mut Outcome, checked: Option<Result<books::Checked, String>>) {
    match checked {
        None => {}
        Some(Err(failure)) => outcome.failures.push(failure),
        Some(Ok(checked)) => {
            outcome.books += 1;
            outcome.reports += checked.reports;
            outcome.named += checked.named;
            outcome.ahead += checked.ahead;
            outcome.settled += checked.settled;
        }
    }
}

/// How far the circular's rules go. A script that differs from today's is not compared with them.
fn compared(task: Task, script: &[u8]) -> Result<Extent, String> {
    let answers = engine(script);
    if compare::between(&reference(script), &answers).is_some() {
        return Err(failure(task, script, "today's", from_today));
    }
    circular::compared(script, &answers)
        .map_err(|_| failure(task, script, "the circular's", from_the_circular))
}

fn from_today(script: &[u8]) -> Option<Difference> {
    compare::difference(script, reference, engine)
}

fn from_the_circular(script: &[u8]) -> Option<Difference> {
    circular::difference(script, engine)
}

/// As a text that tells how to see it again.
fn failure(task: Task, script: &[u8], rules: &str, differ: Differ) -> String {
    let shortest = compare::shortest(script, &|script| differ(script).is_some());
    let difference = differ(&shortest).expect("the shortest script fails too");
    format!(
        "{:?} seed {}: answer {} differs from {rules} rules\nreference: {}engine:    {}script:\n{}",
        task.kind,
        task.seed,
        difference.line,
        String::from_utf8_lossy(&difference.reference),
        String::from_utf8_lossy(&difference.engine),
        String::from_utf8_lossy(&shortest),
    )
}

/// None where the claim does not speak of the script.
fn booked(task: Task, script: &[u8]) -> Option<Result<books::Checked, String>> {
    if !books::applies(script) {
        return None;
    }
    let check = |script: &[u8]| books::check(script, &engine(script));
    let full = books::with_reports(script);
    Some(check(&full).map_err(|_| {
        let fails = |script: &[u8]| books::applies(script) && check(script).is_err();
        let shortest = compare::shortest(&full, &fails);
        let what = check(&shortest).err().unwrap_or_default();
        let text = String::from_utf8_lossy(&shortest);
        format!(
            "{:?} seed {}: books, answer {what}\nscript:\n{text}",
            task.kind, task.seed
        )
    }))
}

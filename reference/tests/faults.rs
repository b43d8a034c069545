//! Faulty variants of the reference, each compiled and played over the corpus: every fault must
//! show in the answers. The unmodified reference says what the answers should be.

use reference::compare::Play;
use reference::corpus::{calendar, check_digits, corpus, generated};
use reference::corpus::{lot_file, tariff, tray_corpus, Script};
use reference::{calendar_script, check_digits_script, lot_file_script};
use reference::{script, tariff_script, tray_script};
use std::collections::HashSet;
use std::fs;
use std::path::{Path, PathBuf};
use std::process::Command;
use std::sync::atomic::{AtomicUsize, Ordering};
use std::sync::Mutex;
use std::thread;

const COMPILERS: usize = 2;
/// The sources that the small program is made of, and where it starts.
const SOURCES: [&str; 13] = [
    "asked.rs",
    "calendar_script.rs",
    "check_digits_script.rs",
    "checked.rs",
    "hex.rs",
    "lent.rs",
    "lot_file_script.rs",
    "packed.rs",
    "plain.rs",
    "questions.rs",
    "random.rs",
    "tariff_script.rs",
    "tray_script.rs",
];
const FOLDERS: [&str; 6] = [
    "calendar",
    "check_digits",
    "lot_file",
    "script",
    "session",
    "tariff",
];
const PROGRAM: &str = "faults/program.rs";
/// No call of a script reaches what is in it.
const TRAYS: &str = "src/session/trays.rs";

/// What no call of a script reaches either, and is asked questions of its own.
struct Subject {
    /// Also that of the folder with its sources.
    name: &'static str,
    play: Play,
    generated: fn() -> Vec<Script>,
    fixed: fn() -> Vec<Script>,
    /// So many of its faults the generated questions must catch.
    least: usize,
}

const SUBJECTS: [Subject; 4] = [
    Subject {
        name: "calendar",
        play: calendar_script::play,
        generated: calendar::generated,
        fixed: calendar::fixed,
        least: 19,
    },
    Subject {
        name: "check_digits",
        play: check_digits_script::play,
        generated: check_digits::generated,
        fixed: check_digits::fixed,
        least: 18,
    },
    Subject {
        name: "lot_file",
        play: lot_file_script::play,
        generated: lot_file::generated,
        fixed: lot_file::fixed,
        least: 24,
    },
    Subject {
        name: "tariff",
        play: tariff_script::play,
        generated: tariff::generated,
        fixed: tariff::fixed,
        least: 28,
    },
];

struct Fault {
    what: String,
    file: String,
    changes: Vec<Change>,
}

#[derive(Default)]
struct Change {
    old: Vec<String>,
    new: Vec<String>,
}

enum Outcome {
    /// By the script of this name.
    Caught(String),
    Missed,
    /// The program was not made, so the fault says nothing.
    NoProgram(String),
}

/// What all faults have come to, those of the subjects apart.
#[derive(Default)]
struct Tally {
    of_subjects: [Caught; SUBJECTS.len()],
    of_others: Caught,
    failures: Vec<String>,
}

/// By others only if no generated script or question catches the fault.
#[derive(Default)]
struct Caught {
    by_generated: usize,
    by_others: usize,
}

#[test]
fn every_fault_is_caught() {
    let faults = faults();
    assert!(faults.len() >= 245, "only {} faults", faults.len());
    let workshop = Workshop::new();
    assert!(
        matches!(workshop.outcome(0, None), Outcome::Missed),
        "the unchanged program differs from the reference"
    );
    let next = AtomicUsize::new(0);
    let tally = Mutex::new(Tally::default());
    thread::scope(|scope| {
        for worker in 0..COMPILERS {
            let (workshop, next, tally, faults) = (&workshop, &next, &tally, &faults);
            scope.spawn(move || {
                while let Some(fault) = faults.get(next.fetch_add(1, Ordering::Relaxed)) {
                    let outcome = workshop.outcome(worker, Some(fault));
                    tally.lock().unwrap().add(fault, outcome, workshop);
                }
            });
        }
    });
    let tally = tally.into_inner().unwrap();
    tally.print();
    assert!(tally.failures.is_empty(), "{}", tally.failures.join("\n"));
    let generated = tally.of_others.by_generated;
    let reached = faults.iter().filter(|fault| fault.is_reached_by_scripts());
    assert!(10 * generated >= 9 * reached.count(), "{generated} are few");
    for (subject, caught) in SUBJECTS.iter().zip(&tally.of_subjects) {
        let (name, generated) = (subject.name, caught.by_generated);
        assert!(
            generated >= subject.least,
            "{generated} of the {name} are few"
        );
    }
}

impl Tally {
    fn print(&self) {
        let (generated, others) = (self.of_others.by_generated, self.of_others.by_others);
        println!("caught by generated scripts alone: {generated}, by others only: {others}");
        for (Subject { name, .. }, caught) in SUBJECTS.iter().zip(&self.of_subjects) {
            let (generated, fixed) = (caught.by_generated, caught.by_others);
            println!("of the {name}, by generated questions: {generated}, by fixed only: {fixed}");
        }
    }

    fn add(&mut self, fault: &Fault, outcome: Outcome, workshop: &Workshop) {
        let what = &fault.what;
        match outcome {
            Outcome::Caught(script) => {
                println!("{script:24} {what}");
                self.of(fault).add(workshop.generated.contains(&script));
            }
            Outcome::Missed => self.failures.push(format!("not caught: {what}")),
            Outcome::NoProgram(why) => self.failures.push(format!("no program: {what}\n{why}")),
        }
    }

    fn of(&mut self, fault: &Fault) -> &mut Caught {
        match fault.subject() {
            Some(at) => &mut self.of_subjects[at],
            None => &mut self.of_others,
        }
    }
}

impl Caught {
    fn add(&mut self, is_generated: bool) {
        if is_generated {
            self.by_generated += 1;
        } else {
            self.by_others += 1;
        }
    }
}

/// A directory with the scripts, their answers, and a copy of the sources for each compiler.
struct Workshop {
    package: PathBuf,
    place: PathBuf,
    /// The names of the generated scripts and questions, which are played before the others.
    generated: HashSet<String>,
}

impl Workshop {
    fn new() -> Workshop {
        let place = std::env::temp_dir().join(format!("faults-{}", std::process::id()));
        fs::create_dir_all(&place).unwrap();
        let mut text = noted(&tray_corpus(), tray_script::play);
        text.extend(noted(&corpus(), script::play));
        fs::write(place.join("corpus"), text).unwrap();
        let mut generated = generated();
        for subject in SUBJECTS {
            let questions = (subject.generated)();
            let mut text = noted(&questions, subject.play);
            text.extend(noted(&(subject.fixed)(), subject.play));
            fs::write(place.join(subject.name), text).unwrap();
            generated.extend(questions);
        }
        Workshop {
            package: PathBuf::from(env!("CARGO_MANIFEST_DIR")),
            place,
            generated: generated.into_iter().map(|script| script.name).collect(),
        }
    }

    fn outcome(&self, worker: usize, fault: Option<&Fault>) -> Outcome {
        let bench = self.place.join(worker.to_string());
        self.copy_sources(&bench);
        if let Some(fault) = fault {
            if let Err(why) = fault.put_in(&bench) {
                return Outcome::NoProgram(why);
            }
        }
        match compiled(&bench) {
            Ok(program) => self.played(&program, &corpora(fault)),
            Err(why) => Outcome::NoProgram(why),
        }
    }

    fn copy_sources(&self, bench: &Path) {
        fs::create_dir_all(bench).unwrap();
        fs::copy(self.package.join(PROGRAM), bench.join("main.rs")).unwrap();
        let source = self.package.join("src");
        for name in SOURCES {
            fs::copy(source.join(name), bench.join(name)).unwrap();
        }
        for folder in FOLDERS {
            fs::create_dir_all(bench.join(folder)).unwrap();
            for entry in fs::read_dir(source.join(folder)).unwrap() {
                let file = entry.unwrap();
                fs::copy(file.path(), bench.join(folder).join(file.file_name())).unwrap();
            }
        }
    }

    fn played(&self, program: &Path, corpora: &[&str]) -> Outcome {
        let paths = corpora.iter().map(|name| self.place.join(name));
        let run = Command::new(program).args(paths).output().unwrap();
        let script = String::from_utf8_lossy(&run.stdout).trim().to_string();
        match run.status.code() {
            Some(0) => Outcome::Missed,
            Some(1) => Outcome::Caught(script),
            _ => Outcome::NoProgram(format!("it ended with {}", run.status)),
        }
    }
}

/// The files with what can show the fault: nothing uses the subjects, nor they each other.
fn corpora(fault: Option<&Fault>) -> Vec<&'static str> {
    let names = SUBJECTS.map(|subject| subject.name);
    match fault.map(Fault::subject) {
        None => [&["corpus"][..], &names].concat(),
        Some(Some(at)) => vec![names[at]],
        Some(None) => vec!["corpus"],
    }
}

/// The scripts with their answers, as the program reads them.
fn noted(scripts: &[Script], play: Play) -> Vec<u8> {
    let mut text = Vec::new();
    for script in scripts {
        let answers = play(&script.text);
        let (name, length) = (&script.name, script.text.len());
        text.extend(format!("{name}\t{length}\t{}\n", answers.len()).into_bytes());
        text.extend(&script.text);
        text.extend(answers);
    }
    text
}

impl Drop for Workshop {
    fn drop(&mut self) {
        let _ = fs::remove_dir_all(&self.place);
    }
}

/// Unoptimised, which takes the least time in all. What the last fault has not changed is kept
/// from its compilation.
fn compiled(bench: &Path) -> Result<PathBuf, String> {
    let program = bench.join("program");
    let incremental = format!("incremental={}", bench.join("kept").display());
    let compiler = std::env::var("RUSTC").unwrap_or("rustc".into());
    let run = Command::new(compiler)
        .args(["--edition", "2021", "--cap-lints", "allow"])
        .args(["-C", "opt-level=0", "-C", "debuginfo=0", "-C", &incremental])
        .args(["-C", "prefer-dynamic", "-C", "rpath"])
        .arg(bench.join("main.rs"))
        .arg("-o")
        .arg(&program)
        .output()
        .unwrap();
    let messages = String::from_utf8_lossy(&run.stderr).into_owned();
    run.status.success().then_some(program).ok_or(messages)
}

impl Fault {
    /// By its place among them.
    fn subject(&self) -> Option<usize> {
        let folder = |subject: &Subject| format!("src/{}/", subject.name);
        SUBJECTS
            .iter()
            .position(|subject| self.file.starts_with(&folder(subject)))
    }

    fn is_reached_by_scripts(&self) -> bool {
        self.file != TRAYS && self.subject().is_none()
    }

    fn put_in(&self, bench: &Path) -> Result<(), String> {
        let name = self.file.strip_prefix("src/").unwrap_or(&self.file);
        let path = bench.join(name);
        let mut text = fs::read_to_string(&path).map_err(|error| format!("{name}: {error}"))?;
        for change in &self.changes {
            let (old, new) = (change.old.join("\n"), change.new.join("\n"));
            let times = text.matches(&old).count();
            if times != 1 {
                return Err(format!("{name} has {times} times:\n{old}"));
            }
            text = text.replace(&old, &new);
        }
        fs::write(path, text).map_err(|error| error.to_string())
    }
}

/// From all lists, which are the text files beside the program.
fn faults() -> Vec<Fault> {
    let folder = Path::new(env!("CARGO_MANIFEST_DIR")).join("faults");
    let entries = fs::read_dir(folder).unwrap();
    let mut paths: Vec<PathBuf> = entries.map(|entry| entry.unwrap().path()).collect();
    paths.retain(|path| path.extension().is_some_and(|extension| extension == "txt"));
    paths.sort();
    let lists = paths.iter().map(|path| fs::read_to_string(path).unwrap());
    lists.flat_map(|list| read(&list)).collect()
}

fn read(list: &str) -> Vec<Fault> {
    let mut faults: Vec<Fault> = Vec::new();
    for line in list.lines().filter(|line| !line.starts_with('#')) {
        if let Some(what) = line.strip_prefix("== ") {
            faults.push(Fault {
                what: what.into(),
                file: String::new(),
                changes: Vec::new(),
            });
        } else if !line.is_empty() {
            read_line(faults.last_mut().expect("a fault has a sentence"), line);
        }
    }
    faults
}

fn read_line(fault: &mut Fault, line: &str) {
    if let Some(file) = line.strip_prefix("in ") {
        fault.file = file.into();
    } else if let Some(old) = line.strip_prefix('-') {
        let begun = fault
            .changes
            .last()
            .is_some_and(|change| change.new.is_empty());
        if !begun {
            fault.changes.push(Change::default());
        }
        fault.changes.last_mut().unwrap().old.push(old.into());
    } else if let Some(new) = line.strip_prefix('+') {
        let change = fault.changes.last_mut().expect("old text comes first");
        change.new.push(new.into());
    } else {
        panic!("{line} is no line of a fault");
    }
}

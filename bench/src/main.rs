//! Compares the library with its twin, byte for byte, and measures both.

mod journals;
mod twin;

use journals::{Generator, Kind, Random};
use std::collections::BTreeMap;
use std::env;
use std::error::Error;
use std::fs;
use std::hint::black_box;
use std::path::{Path, PathBuf};
use std::process::ExitCode;
use std::time::{Duration, Instant};
use twin::{Fault, State};

const EXAMPLES: &str = concat!(env!("CARGO_MANIFEST_DIR"), "/../examples");

/// No text is longer.
const LONGEST_TEXT: usize = 2048;

mod library {
    unsafe extern "C" {
        fn mellfryd_show(journal: *const u8, journal_len: usize, out: *mut u8, out_len: usize) -> usize;
    }

    /// Writes the text to the start of `out`, if it fits, and answers its length.
    pub fn show(journal: &[u8], out: &mut [u8]) -> usize {
        // Safety: both parts of memory are as long as is said, and only the second is written.
        unsafe { mellfryd_show(journal.as_ptr(), journal.len(), out.as_mut_ptr(), out.len()) }
    }
}

fn main() -> ExitCode {
    let arguments: Vec<String> = env::args().skip(1).collect();
    let words: Vec<&str> = arguments.iter().map(String::as_str).collect();
    let done = match words[..] {
        ["compare"] => compare(20_000, 1),
        ["compare", count] => number(count).and_then(|count| compare(count, 1)),
        ["compare", count, seed] => number(count).and_then(|count| compare(count, number(seed)?)),
        ["time"] => time(51),
        ["time", rounds] => number(rounds).and_then(|rounds| time(rounds.max(1) as usize)),
        _ => Err("usage: bench compare [count] [seed] | bench time [rounds]".into()),
    };
    match done {
        Ok(()) => ExitCode::SUCCESS,
        Err(error) => {
            eprintln!("{error}");
            ExitCode::FAILURE
        }
    }
}

fn number(text: &str) -> Result<u64, Box<dyn Error>> {
    text.parse().map_err(|error| format!("{text}: {error}").into())
}

// ---- Comparing ----------------------------------------------------------------------------------------------------

/// Runs journals through both, and counts what is shown of them.
struct Comparison {
    twin_text: Vec<u8>,
    library_text: Vec<u8>,
    before: Vec<u8>,
    random: Random,
    journals: u64,
    short_buffers: u64,
    outcomes: BTreeMap<&'static str, u64>,
    denials: BTreeMap<u8, u64>,
}

impl Comparison {
    fn new(seed: u64) -> Self {
        let names = ["running", "success", "fatal", "fault 13", "fault 14", "fault 15", "fault 16"];
        Comparison {
            twin_text: Vec::with_capacity(LONGEST_TEXT),
            library_text: vec![0; LONGEST_TEXT],
            before: vec![0; LONGEST_TEXT],
            random: Random::new(!seed),
            journals: 0,
            short_buffers: 0,
            outcomes: names.into_iter().map(|name| (name, 0)).collect(),
            denials: BTreeMap::new(),
        }
    }

    fn check(&mut self, origin: &str, journal: &[u8]) -> Result<(), Box<dyn Error>> {
        let shown = twin::show(journal, &mut self.twin_text);
        self.journals += 1;
        let outcome = match shown {
            Ok(State::Running) => "running",
            Ok(State::Success) => "success",
            Ok(State::Fatal) => "fatal",
            Err(Fault::TooLong) => "fault 13",
            Err(Fault::LineNotDue { .. }) => "fault 14",
            Err(Fault::ValueNotAllowed { .. }) => "fault 15",
            Err(Fault::Denied { denial, .. }) => {
                *self.denials.entry(denial as u8).or_default() += 1;
                "fault 16"
            }
        };
        *self.outcomes.entry(outcome).or_default() += 1;

        // A buffer that is long enough: the text, and bytes after it as they were.
        self.library_text.fill(self.random.below(256) as u8);
        self.before.copy_from_slice(&self.library_text);
        let room = if self.random.chance(1, 8) { self.twin_text.len() } else { LONGEST_TEXT };
        let length = library::show(journal, &mut self.library_text[..room]);
        if self.library_text.get(..length) != Some(&self.twin_text[..]) {
            return Err(self.difference(origin, journal, length).into());
        }
        if self.library_text[length..] != self.before[length..] {
            return Err(format!("bytes after the text changed\n{}", self.difference(origin, journal, length)).into());
        }

        // A buffer that is too short: the same length, and nothing written.
        if self.random.chance(1, 8) {
            self.short_buffers += 1;
            self.library_text.copy_from_slice(&self.before);
            let room = self.random.below(self.twin_text.len());
            let room = if self.random.chance(1, 2) { self.twin_text.len() - 1 } else { room };
            let length = library::show(journal, &mut self.library_text[..room]);
            if length != self.twin_text.len() || self.library_text != self.before {
                let difference = self.difference(origin, journal, length);
                return Err(format!("a buffer of {room} bytes, too short\n{difference}").into());
            }
        }
        Ok(())
    }

    fn difference(&self, origin: &str, journal: &[u8], length: usize) -> String {
        let text = self.library_text.get(..length).unwrap_or(&self.library_text);
        format!(
            "DIFFERENT on {origin}\njournal ({} bytes): \"{}\"\nlibrary ({length} bytes): \"{}\"\ntwin ({} bytes): \"{}\"",
            journal.len(),
            journal.escape_ascii(),
            text.escape_ascii(),
            self.twin_text.len(),
            self.twin_text.escape_ascii(),
        )
    }

    fn print(&self) {
        println!("{} journals the same, {} of them also with a short buffer", self.journals, self.short_buffers);
        for name in ["running", "success", "fatal", "fault 13", "fault 14", "fault 15", "fault 16"] {
            println!("  {name:<9} {:>8}", self.outcomes[name]);
        }
        let denials: Vec<String> = self.denials.iter().map(|(number, count)| format!("{number}: {count}")).collect();
        println!("  fault 16 by the hub's refusal: {}", denials.join(", "));
    }
}

fn examples() -> Result<Vec<PathBuf>, Box<dyn Error>> {
    let folder = fs::read_dir(Path::new(EXAMPLES)).map_err(|error| format!("{EXAMPLES}: {error}"))?;
    let mut paths = folder.map(|entry| Ok(entry?.path())).collect::<Result<Vec<PathBuf>, std::io::Error>>()?;
    paths.retain(|path| path.extension().is_some_and(|extension| extension == "journal"));
    paths.sort();
    Ok(paths)
}

fn compare(count: u64, seed: u64) -> Result<(), Box<dyn Error>> {
    let paths = examples()?;
    let mut comparison = Comparison::new(seed);
    for path in &paths {
        let journal = fs::read(path)?;
        let name = path.display().to_string();
        comparison.check(&name, &journal)?;
        if journal.len() <= 1000 {
            for end in 0..journal.len() {
                comparison.check(&format!("{name} cut after {end} bytes"), &journal[..end])?;
            }
        }
    }
    println!("{} examples, and each shorter than 1,000 bytes cut at every byte:", paths.len());
    comparison.print();

    let mut generator = Generator::new(seed);
    let mut comparison = Comparison::new(seed);
    let mut kinds = [0u64; Kind::ALL.len()];
    for index in 0..count {
        let (kind, journal) = generator.journal();
        kinds[kind as usize] += 1;
        comparison.check(&format!("{kind:?} journal {index} of seed {seed}"), &journal)?;
    }
    println!("random journals of seed {seed}:");
    comparison.print();
    let kinds: Vec<String> = Kind::ALL.iter().map(|&kind| format!("{kind:?} {}", kinds[kind as usize])).collect();
    println!("  made: {}", kinds.join(", "));
    let letters = (b'A'..=b'R').map(char::from).zip(generator.taken);
    let letters: Vec<String> = letters.map(|(letter, count)| format!("{letter} {count}")).collect();
    println!("  steps accepted while making them: {}", letters.join(", "));
    Ok(())
}

// ---- Measuring ----------------------------------------------------------------------------------------------------

/// The best and the median of some times, each of which is for `calls` calls.
fn best_and_median(times: &mut [Duration], calls: usize) -> (f64, f64) {
    times.sort();
    let micros = |time: Duration| time.as_secs_f64() * 1e6 / calls as f64;
    (micros(times[0]), micros(times[times.len() / 2]))
}

/// Times both on the same journals, in turns, each round going over all of them `repeats` times.
fn measure(name: &str, journals: &[Vec<u8>], rounds: usize, repeats: usize) -> Result<(), Box<dyn Error>> {
    let mut twin_text = Vec::with_capacity(LONGEST_TEXT);
    let mut library_text = vec![0; LONGEST_TEXT];
    for journal in journals {
        let _ = twin::show(journal, &mut twin_text);
        let length = library::show(journal, &mut library_text);
        if library_text.get(..length) != Some(&twin_text[..]) {
            return Err(format!("{name}: the texts differ, run compare").into());
        }
    }

    let mut library_times = Vec::with_capacity(rounds);
    let mut twin_times = Vec::with_capacity(rounds);
    for _ in 0..rounds {
        let start = Instant::now();
        for _ in 0..repeats {
            for journal in journals {
                black_box(library::show(black_box(journal), &mut library_text));
            }
        }
        library_times.push(start.elapsed());

        let start = Instant::now();
        for _ in 0..repeats {
            for journal in journals {
                let _ = black_box(twin::show(black_box(journal), &mut twin_text));
                black_box(&twin_text);
            }
        }
        twin_times.push(start.elapsed());
    }

    let calls = repeats * journals.len();
    let (library_best, library_median) = best_and_median(&mut library_times, calls);
    let (twin_best, twin_median) = best_and_median(&mut twin_times, calls);
    println!("{name}");
    println!("  library  best {library_best:9.3}  median {library_median:9.3} microseconds a journal");
    println!("  twin     best {twin_best:9.3}  median {twin_median:9.3}");
    println!("  library/twin  best {:.2}  median {:.2}", library_best / twin_best, library_median / twin_median);
    Ok(())
}

fn time(rounds: usize) -> Result<(), Box<dyn Error>> {
    println!("{rounds} rounds each, library and twin in turns");
    for register in ["sum", "classes", "peak"] {
        let (journal, steps) =
            journals::longest(register).map_err(|denial| format!("the longest run is denied: {denial:?}"))?;
        let name = format!("longest run, {register}: {steps} steps, {} bytes", journal.len());
        measure(&name, &[journal], rounds, 20)?;
    }

    let mut generator = Generator::new(1);
    let middling: Vec<Vec<u8>> = (0..1000).map(|_| generator.middling()).collect();
    let bytes: usize = middling.iter().map(Vec::len).sum();
    let steps: u64 = generator.taken.iter().sum();
    let name = format!("1,000 middling runs: {} steps and {} bytes on average", steps / 1000, bytes / 1000);
    measure(&name, &middling, rounds, 1)?;

    let small = fs::read(Path::new(EXAMPLES).join("two-commands.journal"))?;
    measure(&format!("two-commands.journal: 10 steps, {} bytes", small.len()), &[small], rounds, 1000)
}

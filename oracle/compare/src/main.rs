//! The port against the published Rust: the same calls to both, every answer, place, value, count of sweeps with whether the
//! last was quiet, count of turned pairs, mark of even roots, and lent cell compared.
//!
//!     compare SEED COUNT         every small shape, then COUNT drawn calls of each entry point, 40 times as many moduli
//!     compare SEED COUNT NAME    the same of one entry point
//!     compare SEED COUNT pages   the text of both pages and of page one alone, of COUNT drawn cut files, beside that of the Rust's outcomes
//!     compare replay FILE        the calls of FILE, one to a line, as a mismatch prints them
//!
//! Of a cut matrix, cut values and a density whose list has a plan the planned call is compared too.
//! It ends with status 1 on a mismatch and where the library lacks an entry point. The last lines have the count of calls that
//! gave up, which is those whose last sweep still turned a pair, of those whose roots all came out even, of all calls, and the seed.

use std::collections::BTreeMap;
use std::process::exit;

use harness::call::{Arg, Call, ENTRIES, Entry, Outcome};
use harness::cases::{self, Bounds};
use harness::oracle::{Build, outcome};
use harness::random::Random;
use harness::small;

/// How many mismatches are shown in full.
const SHOWN: usize = 20;

/// How many moduli are drawn for one call of another entry point: they take no time.
const MODULI: usize = 40;

#[derive(Default)]
struct Tally {
    calls: usize,
    wrong: usize,
    answers: BTreeMap<(Entry, u32), usize>,
    gave_up: BTreeMap<Entry, usize>,
    even: BTreeMap<Entry, usize>,
    planned: BTreeMap<(Entry, u32), usize>,
}

impl Tally {
    /// The call by its list's plan, which under cap 13 must leave what the Rust gives to the list.
    fn see_planned(&mut self, call: &Call) {
        if !matches!(call.entry, Entry::cut_matrix | Entry::dense_schmidt_values | Entry::dense_reduced_density) {
            return;
        }
        let Some(plan) = port::plan_of(&call.words(2), call.one(1)) else { return };
        let mut widest = call.clone();
        widest.args[3] = Arg::One(13);
        let theirs = outcome(&widest, Build::Counting);
        let ours = match plan {
            Some(plan) => port::planned(&widest, &plan),
            None => Some(None),
        };
        let Some(ours) = ours else { return };
        self.calls += 1;
        *self.planned.entry((call.entry, theirs.number)).or_insert(0) += 1;
        if ours.as_ref() == Some(&theirs) {
            return;
        }
        self.wrong += 1;
        if self.wrong <= SHOWN {
            println!("MISMATCH of the planned call {}", widest.line());
            match ours {
                Some(ours) => show(&ours, &theirs),
                None => println!("  a plan made at once and one made by adding differ, or the port wrote outside of a slice"),
            }
        }
    }

    fn see(&mut self, call: &Call) {
        self.see_planned(call);
        let Some(ours) = port::run(call) else { return };
        let theirs = outcome(call, Build::Counting);
        self.calls += 1;
        if theirs.gave_up(call) {
            *self.gave_up.entry(call.entry).or_insert(0) += 1;
        }
        if theirs.exact == Some(true) {
            *self.even.entry(call.entry).or_insert(0) += 1;
        }
        *self.answers.entry((call.entry, theirs.number)).or_insert(0) += 1;
        if ours.as_ref() == Some(&theirs) {
            return;
        }
        self.wrong += 1;
        if self.wrong <= SHOWN {
            println!("MISMATCH {}", call.line());
            match ours {
                Some(ours) => show(&ours, &theirs),
                None => println!("  the port wrote outside of a slice, or no yes or no"),
            }
        }
    }

    fn print(&self) {
        let mut by_entry: BTreeMap<Entry, String> = BTreeMap::new();
        for ((entry, number), count) in &self.answers {
            by_entry.entry(*entry).or_default().push_str(&format!("  {number}: {count}"));
        }
        for (entry, answers) in by_entry {
            println!("{:<28} {answers}", entry.name());
        }
        let mut by_plan: BTreeMap<Entry, String> = BTreeMap::new();
        for ((entry, number), count) in &self.planned {
            by_plan.entry(*entry).or_default().push_str(&format!("  {number}: {count}"));
        }
        for (entry, answers) in by_plan {
            println!("planned {:<20} {answers}", entry.name());
        }
        for (what, counts) in [("gave up", &self.gave_up), ("all roots even", &self.even)] {
            let each: Vec<String> = counts.iter().map(|(entry, count)| format!("{} {count}", entry.name())).collect();
            println!("{what}: {} calls; {}", counts.values().sum::<usize>(), each.join(", "));
        }
    }
}

/// The entry points that the library lacks.
fn missing() -> Vec<String> {
    let mut names: Vec<String> = ENTRIES.iter().filter(|&&entry| !port::has(entry)).map(|entry| entry.name()).collect();
    if port::certificate(b"", true, 0).is_none() {
        names.push("certificate and certificate_pages".into());
    }
    names
}

/// The room that the text of page one and of both pages needs.
const ROOMS: [usize; 2] = [2048, 102400];

/// The certificate of drawn files as text: page one and both pages, in the room that they need, in more, and in one byte less.
#[derive(Default)]
struct Texts {
    files: usize,
    wrong: usize,
    answers: BTreeMap<u32, usize>,
    longest: usize,
}

impl Texts {
    fn see(&mut self, file: &[u8]) {
        let theirs = harness::pages::printed(file);
        self.files += 1;
        self.longest = self.longest.max(theirs.both.len());
        *self.answers.entry(theirs.number).or_insert(0) += 1;
        for (both, printed) in [(false, &theirs.one), (true, &theirs.both)] {
            let need = ROOMS[usize::from(both)];
            for room in [need, need + 1 + file.len() % 99, need - 1, 0] {
                let (number, place, length) = match room < need {
                    true => (6, 1, 0),
                    false => (theirs.number, theirs.place as usize, printed.len()),
                };
                let mut text = printed.as_bytes()[..length].to_vec();
                text.resize(room, port::FILLED);
                if port::certificate(file, both, room) != Some(port::Told { number, place, length, text }) {
                    self.wrong += 1;
                    let hex: String = file.iter().map(|byte| format!("{byte:02x}")).collect();
                    println!("MISMATCH of {} in room {room}: file {hex}", if both { "both pages" } else { "page one" });
                }
            }
        }
    }

    fn run(seed: u64, count: usize) -> Texts {
        let (mut texts, rng) = (Texts::default(), &mut Random::new(seed ^ 0x9A6E5));
        if port::certificate(b"", true, 0).is_some() {
            (0..count).for_each(|_| texts.see(&harness::pages::drawn(rng)));
        }
        texts
    }

    fn print(&self) {
        let each: Vec<String> = self.answers.iter().map(|(number, count)| format!("{number}: {count}")).collect();
        println!("{:<28}   {}; the longest text has {} bytes", "both pages as text", each.join("  "), self.longest);
    }
}

fn show(ours: &Outcome, theirs: &Outcome) {
    let head = |outcome: &Outcome| {
        let sweeps = outcome
            .sweeps
            .map_or(String::new(), |s| format!(" sweeps {} quiet {} turned {}", s.begun, s.quiet, s.turned));
        let exact = outcome.exact.map_or(String::new(), |exact| format!(" exact {exact}"));
        format!("answer {} place {} value {:X}{sweeps}{exact}", outcome.number, outcome.place, outcome.value)
    };
    println!("  port {}; oracle {}", head(ours), head(theirs));
    for (slice, (a, b)) in ours.slices.iter().zip(&theirs.slices).enumerate() {
        if let Some(at) = (0..a.len()).find(|&at| a[at] != b[at]) {
            println!("  slice {slice} first differs at {at}: port {:016X}, oracle {:016X}", a[at], b[at]);
        }
    }
}

/// Small draws mostly, and now and then one near the largest sizes.
fn bounds(rng: &mut Random) -> Bounds {
    match rng.below(200) {
        0 => Bounds { qubits: 12, side: 64 },
        1..=5 => Bounds { qubits: 9, side: 32 },
        6..=40 => Bounds { qubits: 7, side: 16 },
        _ => Bounds { qubits: 5, side: 6 },
    }
}

/// Of every entry point, or of those that `wanted` names.
fn run(seed: u64, count: usize, wanted: &str) -> Tally {
    let mut tally = Tally::default();
    for &entry in ENTRIES {
        if !port::has(entry) || !(wanted.is_empty() || entry.name() == wanted) {
            continue;
        }
        small::each(entry, &mut |call| tally.see(&call));
        small::every_cut(entry, &mut |call| tally.see(&call));
        let rng = &mut Random::new(seed ^ (entry as u64) << 32);
        let count = if entry == Entry::modulus { MODULI * count } else { count };
        for drawn in 0..count {
            let bounds = bounds(rng);
            tally.see(&cases::any(rng, entry, bounds));
            if drawn % 16 == 0 {
                let call = cases::accepted(rng, entry, Bounds { qubits: 4, side: 5 });
                small::lengths(rng, &call, &mut |call| tally.see(&call));
            }
        }
    }
    tally
}

fn main() {
    std::panic::set_hook(Box::new(|_| {}));
    let args: Vec<String> = std::env::args().skip(1).collect();
    let start = std::time::Instant::now();
    let mut texts = Texts::default();
    let (tally, how) = match args.iter().map(String::as_str).collect::<Vec<_>>()[..] {
        ["replay", file] => {
            let mut tally = Tally::default();
            let text = std::fs::read_to_string(file).expect("a file of calls");
            for line in text.lines().map(|line| line.trim_start_matches("MISMATCH ")) {
                if !line.is_empty() && !line.starts_with(['#', ' ']) {
                    tally.see(&Call::parse(line));
                }
            }
            (tally, format!("replay of {file}"))
        }
        [seed, count, ref name @ ..] => {
            let number = |word: &str| word.parse().expect("a number");
            let wanted = name.first().unwrap_or(&"");
            if wanted.is_empty() || *wanted == "pages" {
                texts = Texts::run(number(seed), number(count) as usize);
            }
            (run(number(seed), number(count) as usize, wanted), format!("seed {seed}"))
        }
        _ => panic!("usage: compare SEED COUNT [NAME], or compare replay FILE"),
    };
    tally.print();
    if texts.files > 0 {
        texts.print();
    }
    let (calls, wrong) = (tally.calls + 8 * texts.files, tally.wrong + texts.wrong);
    let missing = missing();
    if !missing.is_empty() {
        println!("not in the library, so not compared: {}", missing.join(" "));
    }
    let seconds = start.elapsed().as_secs_f64();
    println!("compared {calls} calls, {wrong} mismatches, {how}, {seconds:.1} s");
    exit(if wrong > 0 || calls == 0 || !missing.is_empty() { 1 } else { 0 });
}

//! Random texts, routed, checked and written in house style, with the second router's answers held against ours in one process.
//!
//!     fuzz [FIRST [COUNT]]     seeds FIRST, FIRST + 1 and so on; 1 and 100,000 where nothing is said
//!
//! A seed decides one job text and, with it, the layout texts that are checked; so `fuzz SEED 1` repeats the one of a seed. At the first
//! difference the job and the other text (a layout or a fixed text) are printed and written to target/bench/difference.job and .lay, and the
//! exit status is 1.

mod hostile;

use hankuribo::Refusal;
use second_router::prng::Prng;
use second_router::{check, gen, house, job, level, mutate, route};
use std::collections::BTreeMap;
use std::fmt::Debug;
use std::time::Instant;

/// Progress is told after so many job texts.
const STEP: u64 = 5_000;

/// Bytes on both sides of a buffer that is handed in; none may change.
const GUARD: usize = 64;

/// An operation that writes a text of a job: into a slice, and as a vector.
struct Operation {
    name: &'static str,
    write: fn(&[u8], &mut [u8]) -> Result<usize, Refusal>,
    to_vec: fn(&[u8]) -> Result<Vec<u8>, Refusal>,
}

const ROUTE: Operation = Operation { name: "route", write: hankuribo::route, to_vec: hankuribo::route_to_vec };
const HOUSE: Operation = Operation { name: "house", write: hankuribo::house, to_vec: hankuribo::house_to_vec };

/// What is compared for one seed.
struct Case<'a> {
    seed: u64,
    tally: &'a mut Tally,
    job: Vec<u8>,
}

#[derive(Default)]
struct Tally {
    kinds: BTreeMap<String, u64>,
    answers: BTreeMap<String, u64>,
    calls: BTreeMap<String, u64>,
}

impl Tally {
    fn count(counts: &mut BTreeMap<String, u64>, name: &str) {
        *counts.entry(name.to_string()).or_insert(0) += 1;
    }

    fn calls_of(&self, name: &str) -> u64 {
        self.calls.get(name).copied().unwrap_or(0)
    }
}

/// A text that can be read by eye.
fn shown(text: &[u8]) -> String {
    text.split_inclusive(|&byte| byte == 10).map(|line| format!("    {}\n", line.escape_ascii())).collect()
}

impl Case<'_> {
    /// Ends the program unless the two are equal.
    fn same<T: PartialEq + Debug>(&self, what: &str, ours: T, second: T, text: &[u8]) {
        if ours == second {
            return;
        }
        println!("DIFFERENCE, seed {}: {}\nours: {:.300?}\nsecond: {:.300?}", self.seed, what, ours, second);
        println!("job:\n{}layout or fixed text:\n{}", shown(&self.job), shown(text));
        let _ = std::fs::write("target/bench/difference.job", &self.job);
        let _ = std::fs::write("target/bench/difference.lay", text);
        std::process::exit(1);
    }

    /// Writes into a buffer of `room` bytes that stands between guards: the answer, and every byte afterwards.
    fn written(&mut self, p: &mut Prng, of: &Operation, room: usize, expected: Result<usize, (usize, usize, usize)>, text: &[u8]) {
        let first = p.next() as u8;
        let before: Vec<u8> = (0..room + 2 * GUARD).map(|i| first.wrapping_add(i as u8)).collect();
        let mut after = before.clone();
        let answer = (of.write)(&self.job, &mut after[GUARD..GUARD + room]).map_err(told);
        Tally::count(&mut self.tally.calls, of.name);
        self.same(&format!("answer of {}, {} bytes of room", of.name, room), answer, expected, text);
        let mut wanted = before;
        if let Ok(bytes) = expected {
            wanted[GUARD..GUARD + bytes].copy_from_slice(text);
        }
        let differs = (0..after.len()).find(|&i| after[i] != wanted[i]);
        self.same(&format!("first byte of the buffer of {} that differs, {} bytes of room", of.name, room), differs, None, text);
    }

    /// The text of the case's job, or of another one, as a vector.
    fn to_vec(&mut self, of: &Operation, job: Option<&[u8]>, expected: Result<Vec<u8>, (usize, usize, usize)>, text: &[u8]) {
        let answer = (of.to_vec)(job.unwrap_or(&self.job)).map_err(told);
        Tally::count(&mut self.tally.calls, of.name);
        self.same(&format!("{}_to_vec{}", of.name, if job.is_some() { " of its own text" } else { "" }), answer, expected, text);
    }

    /// The text of an accepted job, for buffers of its length, of more, of one byte less and of fewer still.
    fn writes(&mut self, p: &mut Prng, of: &Operation, text: &[u8]) {
        let n = text.len();
        for room in [n, n + p.pick(1, 5_000)] {
            self.written(p, of, room, Ok(n), text);
        }
        for room in [n - 1, p.pick(0, n - 1)] {
            self.written(p, of, room, Err((10, 0, n)), text);
        }
        self.to_vec(of, None, Ok(text.to_vec()), text);
    }

    /// The refusal of a job, which leaves a buffer of any length untouched.
    fn refuses(&mut self, p: &mut Prng, of: &Operation, refused: &job::Refusal) {
        let expected = (refused.number, refused.line, 0);
        for room in [0, p.pick(1, 500), [64_000, 70_000][p.pick(0, 1)]] {
            self.written(p, of, room, Err(expected), b"");
        }
        self.to_vec(of, None, Err(expected), b"");
    }

    fn checked(&mut self, what: &str, layout: &[u8]) {
        let ours = hankuribo::check(&self.job, layout);
        let second = check::check(&self.job, layout);
        Tally::count(&mut self.tally.calls, "check");
        let name = match second {
            check::Verdict::Sound => "check: sound".to_string(),
            check::Verdict::Broken(_) => "check: broken".to_string(),
            check::Verdict::Refused(11, _) => "check: refused 11".to_string(),
            check::Verdict::Refused(_, _) => "check: job refused".to_string(),
        };
        Tally::count(&mut self.tally.answers, &name);
        self.same(&format!("verdict, {}", what), format!("{}\n", ours), second.text(), layout);
    }
}

/// A refusal in document 01's numbers: its number, the line that it names, the bytes needed.
fn told(refusal: Refusal) -> (usize, usize, usize) {
    let needed = if let Refusal::TooSmall(bytes) = refusal { bytes } else { 0 };
    (refusal.number(), refusal.line(), needed)
}

/// A refused job: any buffer is untouched, and check says the same, whatever the layout.
fn refused_job(case: &mut Case, p: &mut Prng, refused: job::Refusal) {
    Tally::count(&mut case.tally.answers, &format!("read: refused {}", refused.number));
    case.same("the number that read gives", hankuribo::read(&case.job), refused.number, b"");
    case.same("the sum that plan gives", hankuribo::plan(&case.job), 0, b"");
    case.refuses(p, &ROUTE, &refused);
    case.checked("an empty layout", b"");
    case.checked("a layout above 64,000 bytes", &[b' '; 64_001]);
    case.refuses(p, &HOUSE, &refused);
}

/// An accepted job: its layout for buffers of several lengths, then verdicts on that layout, on mutants of it and on other texts; and its
/// fixed text, which is its own fixed text.
fn accepted_job(case: &mut Case, p: &mut Prng, accepted: &job::Job, checks: usize) {
    Tally::count(&mut case.tally.answers, if case.job.len() == 64_000 { "read: accepted, of 64,000 bytes" } else { "read: accepted" });
    if accepted.nets.iter().any(|net| net.weight.is_some()) {
        Tally::count(&mut case.tally.answers, "read: accepted, of these with a written weight");
    }
    let plan = route::plan(accepted);
    let layout = route::layout_text(accepted, &plan).into_bytes();
    let sum: usize = layout.split(|&byte| byte == 10).filter_map(sum_of).sum();
    case.same("the number that read gives", hankuribo::read(&case.job), 0, &layout);
    case.same("the sum that plan gives", hankuribo::plan(&case.job), sum, &layout);
    case.writes(p, &ROUTE, &layout);

    case.checked("the second router's layout", &layout);
    for _ in 0..checks {
        let mutant = mutate::mutate(p.next(), accepted, &layout);
        case.checked("mutant of the second router", &mutant);
        // of three such texts one is made from the mutant, so that several rules are broken at once
        let from = if p.chance(1, 3) { &mutant } else { &layout };
        let (kind, text) = hostile::layout_text(p, &case.job, accepted, from);
        Tally::count(&mut case.tally.kinds, &format!("layout text: {}", kind));
        case.checked(kind, &text);
    }
    // a layout of another job
    let other = gen::generate(p.next(), "tiny").expect("a family");
    case.checked("the layout of another job", route::route(&other).as_bytes());

    let fixed = house::text(accepted).into_bytes();
    case.writes(p, &HOUSE, &fixed);
    case.to_vec(&HOUSE, Some(&fixed), Ok(fixed.clone()), &fixed);
}

/// The sum of a track line.
fn sum_of(line: &[u8]) -> Option<usize> {
    let text = std::str::from_utf8(line).ok()?.strip_prefix(" (track ")?;
    text.strip_suffix(")")?.split(' ').nth(1)?.parse().ok()
}

fn try_seed(seed: u64, tally: &mut Tally) {
    let mut p = Prng::new(seed, 20_261);
    let (kind, text) = hostile::job_text(&mut p);
    Tally::count(&mut tally.kinds, &format!("job text: {}", kind));
    let mut case = Case { seed, tally, job: text };
    match job::read(&case.job) {
        Err(refused) => refused_job(&mut case, &mut p, refused),
        Ok(accepted) => accepted_job(&mut case, &mut p, &accepted, if accepted.board.rows < 300 { 4 } else { 1 }),
    }
}

fn main() {
    level::set(second_router::LEVEL);
    let told: Vec<u64> = std::env::args().skip(1).map(|word| word.parse().expect("a number")).collect();
    let first = told.first().copied().unwrap_or(1);
    let count = told.get(1).copied().unwrap_or(100_000);
    println!("seeds {} to {}", first, first + count - 1);
    let mut tally = Tally::default();
    let start = Instant::now();
    for done in 1..=count {
        try_seed(first + done - 1, &mut tally);
        if done % STEP == 0 || done == count {
            let seconds = start.elapsed().as_secs_f64();
            let rate = done as f64 / seconds;
            let [routes, checks, houses] = ["route", "check", "house"].map(|name| tally.calls_of(name));
            print!("{} job texts, {} calls of route, {} of check, {} of house, 0 differences; ", done, routes, checks, houses);
            println!("{:.0} s, {:.0} job texts a second", seconds, rate);
        }
    }
    for (name, count) in tally.kinds.iter().chain(&tally.answers) {
        println!("{:>9}  {}", count, name);
    }
}

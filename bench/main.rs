//! Routing, checking and house style, measured against the second router: same machine, same run, same texts.
//!
//! Of ours, `read` is `hankuribo::read` (the job alone), `plan` is `hankuribo::plan` (the job and its plan), `route` is `hankuribo::route`
//! (from the job's text to the layout's), `check` is `hankuribo::check` (the job's text and the layout's) and `house` is `hankuribo::house`
//! (from the job's text to the fixed one); `second` is the second router's route, check, or reading and fixed text. A time is processor time,
//! the median of several samples, and those of a line of a table are sampled in turn.
//!
//! Where a table splits the time, `planning` is plan less read, `drawing` is route less plan, `judging` is check less read and `writing` is
//! house less read: the median of the differences within a turn. So the parts need not add up to the whole, and a part that is small beside
//! what it is taken from comes out rough, even below 0.

mod growing;
mod ordered;

use second_router::{check, gen, house, job, level, route};
use std::cell::RefCell;
use std::hint::black_box;

/// Families of the second router's generator, and how many seeds of each are taken, from 1 on.
const FAMILIES: [(&str, u64); 6] = [("max", 12), ("dense", 3), ("blocky", 3), ("precedence", 3), ("stretch", 3), ("ties", 3)];

const SAMPLES: usize = 9;

/// A sample of a short operation repeats it for about so many microseconds.
const LEAST_SAMPLE: f64 = 500.0;

/// The largest ratio of our time to the second router's that is aimed at on the family `max`.
const AIM: f64 = 1.5;

/// The largest ratio of writing the fixed text of a largest job to reading that job that is aimed at.
const WRITING_AIM: f64 = 1.0;

/// A job, with its place in a table.
struct Job {
    family: &'static str,
    seed: u64,
    text: Vec<u8>,
}

#[repr(C)]
struct Timespec {
    seconds: i64,
    nanoseconds: i64,
}

extern "C" {
    fn clock_gettime(clock: i32, now: *mut Timespec) -> i32;
}

/// Linux's clock of the processor time that this thread has used.
const THREAD_CLOCK: i32 = 3;

/// Microseconds of processor time that this thread has used. What else runs on the machine does not count, though it shares the caches.
fn used() -> f64 {
    let mut now = Timespec { seconds: 0, nanoseconds: 0 };
    let failed = unsafe { clock_gettime(THREAD_CLOCK, &mut now) };
    assert!(failed == 0, "no clock of the thread's time");
    now.seconds as f64 * 1e6 + now.nanoseconds as f64 / 1e3
}

/// Microseconds of one call.
fn time(f: &dyn Fn() -> usize, calls: usize) -> f64 {
    let start = used();
    for _ in 0..calls {
        black_box(f());
    }
    (used() - start) / calls as f64
}

fn median(mut samples: Vec<f64>) -> f64 {
    samples.sort_by(|a, b| a.total_cmp(b));
    samples[samples.len() / 2]
}

/// Samples of some operations, taken in turn.
struct Samples<const N: usize>(Vec<[f64; N]>);

impl<const N: usize> Samples<N> {
    fn take(operations: [&dyn Fn() -> usize; N]) -> Samples<N> {
        let calls = operations.map(|f| (LEAST_SAMPLE / time(f, 1)).ceil().max(1.0) as usize);
        Samples((0..SAMPLES).map(|_| std::array::from_fn(|i| time(operations[i], calls[i]))).collect())
    }

    /// The median of each operation.
    fn medians(&self) -> [f64; N] {
        std::array::from_fn(|i| median(self.0.iter().map(|turn| turn[i]).collect()))
    }

    /// The median of what one operation takes more than another.
    fn less(&self, one: usize, other: usize) -> f64 {
        median(self.0.iter().map(|turn| turn[one] - turn[other]).collect())
    }
}

/// Our read, plan and route, and the second router's route.
fn measure_route(text: &[u8]) -> Samples<4> {
    let out = RefCell::new(vec![0; hankuribo::MOST_BYTES]);
    Samples::take([
        &|| hankuribo::read(text),
        &|| hankuribo::plan(text),
        &|| hankuribo::route(text, &mut out.borrow_mut()).unwrap_or(0),
        &|| route::route(text).len(),
    ])
}

/// Our read and check, and the second router's check.
fn measure_check(text: &[u8], layout: &[u8]) -> Samples<3> {
    let is_sound = |sound| if sound { 1 } else { 0 };
    Samples::take([
        &|| hankuribo::read(text),
        &|| is_sound(hankuribo::check(text, layout) == hankuribo::Verdict::Sound),
        &|| is_sound(check::check(text, layout) == check::Verdict::Sound),
    ])
}

/// Our read and house, and the second router's reading and fixed text.
fn measure_house(text: &[u8]) -> Samples<3> {
    let out = RefCell::new(vec![0; hankuribo::MOST_BYTES]);
    Samples::take([
        &|| hankuribo::read(text),
        &|| hankuribo::house(text, &mut out.borrow_mut()).unwrap_or(0),
        &|| job::read(text).map_or(0, |job| house::text(&job).len()),
    ])
}

/// What a program prints for the answer of an operation that writes a text.
fn printed(answer: Result<Vec<u8>, hankuribo::Refusal>) -> Vec<u8> {
    answer.unwrap_or_else(|refusal| format!("{}\n", refusal).into_bytes())
}

/// Our answers for a job, its layout and its fixed text, are the second router's, byte for byte, and so is the verdict on its layout.
fn same_answers(text: &[u8]) -> bool {
    let layout = route::route(text).into_bytes();
    let fixed = job::read(text).map_or_else(|refusal| refusal.text(), |job| house::text(&job)).into_bytes();
    printed(hankuribo::route_to_vec(text)) == layout
        && printed(hankuribo::house_to_vec(text)) == fixed
        && format!("{}\n", hankuribo::check(text, &layout)) == check::check(text, &layout).text()
}

/// Rows, nets and tracks of a job.
fn size(text: &[u8]) -> [usize; 3] {
    job::read(text).map_or([0; 3], |job| [job.board.rows, job.nets.len(), job.board.tracks])
}

/// Says how the ratios of the family `max` stand to the aim.
fn summed_up(what: &str, ratios: Vec<f64>) {
    let worst = ratios.iter().cloned().fold(0.0, f64::max);
    println!("max: our {} takes {:.2} times the second router's (median), {:.2} at most; aimed at: {:.1}", what, median(ratios), worst, AIM);
}

fn families_table(jobs: &[Job]) {
    println!(
        "\nroute, by family\n{:<11}{:>4}{:>6}{:>6}{:>7}{:>11}{:>11}{:>11}{:>11}{:>7}{:>7}",
        "family", "seed", "rows", "nets", "tracks", "read us", "plan us", "route us", "second us", "plan", "route"
    );
    let mut ratios = Vec::new();
    for job in jobs {
        let [rows, nets, tracks] = size(&job.text);
        let [read, plan, ours, second] = measure_route(&job.text).medians();
        println!(
            "{:<11}{:>4}{:>6}{:>6}{:>7}{:>11.1}{:>11.1}{:>11.1}{:>11.1}{:>7.2}{:>7.2}",
            job.family, job.seed, rows, nets, tracks, read, plan, ours, second, plan / second, ours / second
        );
        if job.family == "max" {
            ratios.push(ours / second);
        }
    }
    summed_up("route", ratios);
}

fn growing_table() {
    println!(
        "\nroute, by size\n{:>6}{:>6}{:>7}{:>8}{:>8}{:>11}{:>13}{:>12}{:>11}{:>11}{:>7}",
        "rows", "nets", "tracks", "stretch", "bytes", "read us", "planning us", "drawing us", "route us", "second us", "route"
    );
    for of in growing::SIZES {
        let text = growing::job_text(of);
        let samples = measure_route(&text);
        let [read, _, ours, second] = samples.medians();
        let (planning, drawing) = (samples.less(1, 0), samples.less(2, 1));
        println!(
            "{:>6}{:>6}{:>7}{:>8}{:>8}{:>11.1}{:>13.1}{:>12.1}{:>11.1}{:>11.1}{:>7.2}",
            of.rows, of.nets, of.tracks, of.stretch, text.len(), read, planning, drawing, ours, second, ours / second
        );
    }
}

fn check_table(jobs: &[Job]) {
    println!(
        "\ncheck of the second router's layouts, family max\n{:>4}{:>8}{:>8}{:>11}{:>12}{:>11}{:>11}{:>7}",
        "seed", "lines", "bytes", "read us", "judging us", "check us", "second us", "check"
    );
    let mut ratios = Vec::new();
    for job in jobs.iter().filter(|job| job.family == "max") {
        let layout = route::route(&job.text).into_bytes();
        let samples = measure_check(&job.text, &layout);
        let [read, ours, second] = samples.medians();
        let lines = layout.iter().filter(|&&byte| byte == 10).count();
        println!(
            "{:>4}{:>8}{:>8}{:>11.1}{:>12.1}{:>11.1}{:>11.1}{:>7.2}",
            job.seed, lines, layout.len(), read, samples.less(1, 0), ours, second, ours / second
        );
        ratios.push(ours / second);
    }
    summed_up("check", ratios);
}

/// Read, house and what house takes beyond read: for the families with blocks, and for the largest job with its blocks in several orders.
fn house_table(jobs: &[Job], ordered: &[Job]) {
    println!(
        "\nhouse, by family and by the order of the blocks\n{:<11}{:>4}{:>6}{:>8}{:>8}{:>11}{:>12}{:>11}{:>11}{:>14}{:>7}",
        "job", "seed", "nets", "blocks", "bytes", "read us", "writing us", "house us", "second us", "writing/read", "house"
    );
    let (mut ratios, mut writing_ratios) = (Vec::new(), Vec::new());
    for job in jobs.iter().filter(|job| ["max", "blocky"].contains(&job.family)).chain(ordered) {
        let [nets, blocks, bytes] = job::read(&job.text).map_or([0; 3], |job| [job.nets.len(), job.blocks.len(), house::text(&job).len()]);
        let samples = measure_house(&job.text);
        let [read, ours, second] = samples.medians();
        let writing = samples.less(1, 0);
        println!(
            "{:<11}{:>4}{:>6}{:>8}{:>8}{:>11.1}{:>12.1}{:>11.1}{:>11.1}{:>14.2}{:>7.2}",
            job.family, job.seed, nets, blocks, bytes, read, writing, ours, second, writing / read, ours / second
        );
        if job.family == "max" {
            ratios.push(ours / second);
        }
        if job.family != "blocky" {
            writing_ratios.push(writing / read);
        }
    }
    summed_up("house", ratios);
    let worst = writing_ratios.iter().cloned().fold(0.0, f64::max);
    println!(
        "max and the largest job: writing takes {:.2} times reading (median), {:.2} at most; aimed at: {:.1}",
        median(writing_ratios), worst, WRITING_AIM
    );
}

/// Texts of 64,000 bytes, the most that a job may have: empty lines alone; the largest job, padded with empty lines in front.
fn long_texts() -> [(&'static str, Vec<u8>); 2] {
    let largest = gen::generate(1, "max").expect("a family");
    let mut padded = vec![b'\n'; hankuribo::MOST_BYTES - largest.len()];
    padded.extend_from_slice(&largest);
    [("64,000 empty lines", vec![b'\n'; hankuribo::MOST_BYTES]), ("the largest job padded to 64,000 bytes", padded)]
}

fn main() {
    level::set(second_router::LEVEL);
    let mut jobs = Vec::new();
    for (family, seeds) in FAMILIES {
        for seed in 1..=seeds {
            jobs.push(Job { family, seed, text: gen::generate(seed, family).expect("a family") });
        }
    }
    let grown = growing::SIZES.map(growing::job_text);
    let ordered = ordered::ORDERS.map(|(name, order)| Job { family: name, seed: 1, text: ordered::job_text(order) });
    let texts = jobs.iter().chain(&ordered).map(|job| &job.text).chain(&grown);
    for text in texts.clone() {
        if !same_answers(text) {
            println!("DIFFERS: the layout or the fixed text of this job, or the verdict on its layout\n{}", String::from_utf8_lossy(text));
            std::process::exit(1);
        }
    }
    println!(
        "{} jobs: layouts and fixed texts are the second router's, byte for byte, and so are the verdicts on its layouts",
        texts.count()
    );

    families_table(&jobs);
    growing_table();
    check_table(&jobs);
    house_table(&jobs, &ordered);
    println!();
    for (what, text) in long_texts() {
        let [read, second] = Samples::take([&|| hankuribo::read(&text), &|| job::read(&text).is_ok() as usize]).medians();
        println!("read of {}: {:.1} us, second router {:.1} us", what, read, second);
    }
}

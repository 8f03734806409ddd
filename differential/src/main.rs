//! The archive compared with document 01: see README.md at the repository's root, and `--help`.

mod case;
mod claim;
mod containment;
mod day;
mod exact;
mod generate;
mod held;
mod library;
mod office;
mod paper;
mod program;
mod put_back;
mod random;
mod sheet;
mod series;
mod shrink;
mod solutions;
mod worked;

use case::{Case, Difference, FUNCTIONS};
use paper::{Mistake, Paper, MISTAKES};
use random::Random;
use std::sync::atomic::{AtomicU64, Ordering};
use std::sync::Mutex;
use std::time::{Instant, SystemTime, UNIX_EPOCH};

const HELP: &str = "\
usage: differential [--seed N] [--comparisons N] [--program PATH] [--report PATH]
  --seed N          the random inputs' seed (default: from the clock; printed)
  --comparisons N   how many random inputs (default: 20000000)
  --program PATH    the slip program, to be compared on whole inputs
  --report PATH     the report program, to be compared on whole files";

const BLOCK: u64 = 10_000;

const CORRECT: Paper = Paper { mistake: Mistake::None };

struct Options {
    seed: u64,
    comparisons: u64,
    program: Option<String>,
    report: Option<String>,
}

fn options() -> Options {
    let clock = SystemTime::now().duration_since(UNIX_EPOCH).map_or(0, |d| d.as_nanos() as u64);
    let mut options = Options { seed: clock % 1_000_000_007, comparisons: 20_000_000, program: None, report: None };
    let mut words = std::env::args().skip(1);
    while let Some(word) = words.next() {
        let mut value = || words.next().unwrap_or_else(|| stop(HELP));
        match word.as_str() {
            "--seed" => options.seed = value().parse().unwrap_or_else(|_| stop(HELP)),
            "--comparisons" => options.comparisons = value().parse().unwrap_or_else(|_| stop(HELP)),
            "--program" => options.program = Some(value()),
            "--report" => options.report = Some(value()),
            _ => stop(HELP),
        }
    }
    options
}

fn stop(message: &str) -> ! {
    println!("{message}");
    std::process::exit(1)
}

/// Calls of one function, by cause, and how many results were improper.
#[derive(Clone, Copy, Default)]
struct Row {
    causes: [u64; 18],
    improper: u64,
}

impl Row {
    fn add(&mut self, other: &Row) {
        self.improper += other.improper;
        for (sum, n) in self.causes.iter_mut().zip(other.causes) {
            *sum += n;
        }
    }

    fn calls(&self) -> u64 {
        self.causes.iter().sum()
    }
}

type Counts = [Row; FUNCTIONS.len()];

struct Failure {
    case: Case,
    difference: Difference,
}

/// Random blocks on every core, until all are done or an input fails.
fn compare_random(seed: u64, comparisons: u64, paper: Paper) -> Result<Counts, Failure> {
    let next = AtomicU64::new(0);
    // The lowest block that fails, so that a seed always shows the same failure.
    let failed = AtomicU64::new(u64::MAX);
    let total: Mutex<Counts> = Mutex::new(Counts::default());
    let failure: Mutex<Option<(u64, Case)>> = Mutex::new(None);
    let cores = std::thread::available_parallelism().map_or(1, |n| n.get());
    std::thread::scope(|threads| {
        for _ in 0..cores {
            threads.spawn(|| {
                let mut counts = Counts::default();
                loop {
                    let block = next.fetch_add(1, Ordering::Relaxed);
                    if block * BLOCK >= comparisons || block > failed.load(Ordering::Relaxed) {
                        break;
                    }
                    let mut r = Random::for_block(seed, block);
                    for _ in 0..BLOCK.min(comparisons - block * BLOCK) {
                        let case = generate::case(&mut r);
                        match case.compare(paper) {
                            Ok(met) => {
                                let row = &mut counts[case.function()];
                                row.causes[met.cause] += 1;
                                row.improper += met.improper as u64;
                            }
                            Err(_) => {
                                failed.fetch_min(block, Ordering::Relaxed);
                                let mut first = failure.lock().unwrap();
                                if first.as_ref().is_none_or(|(other, _)| block < *other) {
                                    *first = Some((block, case));
                                }
                                return;
                            }
                        }
                    }
                }
                let mut total = total.lock().unwrap();
                for (sum, own) in total.iter_mut().zip(&counts) {
                    sum.add(own);
                }
            });
        }
    });
    match failure.into_inner().unwrap() {
        None => Ok(total.into_inner().unwrap()),
        Some((_, case)) => {
            let case = shrink::smallest(case, paper);
            let difference = case.compare(paper).expect_err("the smallest input still fails");
            Err(Failure { case, difference })
        }
    }
}

fn print_counts(counts: &Counts) {
    print!("{:16}{:>11}{:>10}{:>10}", "function", "calls", "result", "improper");
    let met = |cause: &usize| counts.iter().any(|row| row.causes[*cause] > 0);
    let causes: Vec<usize> = (1..counts[0].causes.len()).filter(met).collect();
    for cause in &causes {
        print!("{:>9}", format!("R {cause}"));
    }
    println!();
    for (function, row) in FUNCTIONS.iter().zip(counts) {
        print!("{:16}{:>11}{:>10}{:>10}", function.name, row.calls(), row.causes[0], row.improper);
        for n in causes.iter().map(|cause| row.causes[*cause]) {
            let shown = if n == 0 { "-".to_string() } else { n.to_string() };
            print!("{shown:>9}");
        }
        println!();
    }
}

/// Every cause that the paper gives a function has to have come, and no other.
fn check_causes(counts: &Counts) {
    for (function, row) in FUNCTIONS.iter().zip(counts) {
        for (cause, n) in row.causes.iter().enumerate() {
            if (*n > 0) != function.causes.contains(&cause) {
                stop(&format!("FAILED: {} came to the cause {cause} {n} times", function.name));
            }
        }
    }
}

/// A reference that makes a known mistake has to be told from the library.
fn check_mistakes(seed: u64) {
    for mistake in MISTAKES {
        match compare_random(seed, 1_000_000, Paper { mistake }) {
            Ok(_) => stop(&format!("FAILED: the mistake {mistake:?} is not noticed")),
            Err(failure) => {
                let Failure { case, difference } = failure;
                println!("  {mistake:?}: {case}: {}, and with the mistake {}", difference.library, difference.paper);
            }
        }
    }
}

fn main() {
    let options = options();
    let began = Instant::now();
    println!("seed {}", options.seed);
    match worked::meet(CORRECT) {
        Ok(n) => println!("document 01's values: {n} met"),
        Err(message) => stop(&format!("FAILED: {message}")),
    }
    let solved = solutions::enumerate().unwrap_or_else(|message| stop(&format!("FAILED: {message}")));
    println!(
        "demand 3, ends from -4 to 4: {} equations, {} counts found by search ({} improper; {} pairs of thousandths tried); \
         where c holds zero {} without a solution, {} with one, {} with more",
        solved.equations, solved.counts, solved.improper, solved.pairs_tried, solved.none, solved.one, solved.several
    );
    let counts = compare_random(options.seed, options.comparisons, CORRECT).unwrap_or_else(|failure| {
        stop(&format!(
            "FAILED: the smallest input found that differs:\n  {}\n  library: {}\n  paper:   {}",
            failure.case, failure.difference.library, failure.difference.paper
        ))
    });
    print_counts(&counts);
    check_causes(&counts);
    match containment::check(options.seed) {
        Ok(n) => println!("lists of few products: {n} values contain the exact value outward, or lie in it inward"),
        Err(message) => stop(&format!("FAILED: {message}")),
    }
    if let Some(path) = &options.program {
        match program::compare(path, options.seed, CORRECT) {
            Ok(told) => println!("{told}"),
            Err(message) => stop(&format!("FAILED: {message}")),
        }
    }
    match day::compare(options.report.as_deref(), options.seed) {
        Ok(told) => println!("{told}"),
        Err(message) => stop(&format!("FAILED: {message}")),
    }
    match sheet::compare(options.seed) {
        Ok(told) => println!("{told}"),
        Err(message) => stop(&format!("FAILED: {message}")),
    }
    match series::compare(options.seed) {
        Ok(told) => println!("{told}"),
        Err(message) => stop(&format!("FAILED: {message}")),
    }
    match put_back::compare(options.seed) {
        Ok(told) => println!("{told}"),
        Err(message) => stop(&format!("FAILED: {message}")),
    }
    match claim::compare(options.seed) {
        Ok(told) => println!("{told}"),
        Err(message) => stop(&format!("FAILED: {message}")),
    }
    match office::compare(options.seed) {
        Ok(told) => println!("{told}"),
        Err(message) => stop(&format!("FAILED: {message}")),
    }
    println!("the paper's five mistakes, each made by the reference and found, with the smallest input:");
    check_mistakes(options.seed);
    let total: u64 = counts.iter().map(Row::calls).sum::<u64>() + 2 * solved.equations;
    println!("{total} comparisons, no difference; {:.1} s", began.elapsed().as_secs_f64());
}

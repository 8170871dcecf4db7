//! Times the library against the straightforward implementation and against plain dot products.
//!
//!     bench                                    prints the tables
//!     bench count NAME LIBRARY ROUNDS          runs one task only, for callgrind: ours, straight or pairs
//!
//! `valgrind --tool=callgrind --toggle-collect='*counted*' bench count figures ours 1` collects the
//! instructions of the rounds alone, each of 2,000 items.

mod work;

use std::env;
use std::process::ExitCode;
use std::time::Instant;
use work::{Library, Task, Work, FIGURES, ITEMS, OURS, PAIRS, READING, REPORT, STRAIGHT, TASKS};

/// Each time is the best of so many rounds.
const ROUNDS: usize = 100;

const NS_A_SECOND: f64 = 1e9;

/// At most this many times reading a record and making its figures.
const REPORT_TARGET: f64 = 1.15;

const STEPS: [u32; 4] = [1, 2, 5, 10];

fn main() -> ExitCode {
    let arguments: Vec<String> = env::args().skip(1).collect();
    let arguments: Vec<&str> = arguments.iter().map(String::as_str).collect();
    match arguments[..] {
        [] => {
            print_speed();
            print_pairs();
            print_report();
            print_steps();
            print_growth();
            return ExitCode::SUCCESS;
        }
        ["count", name, library, rounds] => {
            let task = TASKS.iter().find(|task| task.name == name);
            let library = match library {
                "ours" => Some(&OURS),
                "straight" => Some(&STRAIGHT),
                "pairs" if task.is_some_and(|task| task.pairs_target.is_some()) => Some(&PAIRS),
                _ => None,
            };
            if let (Some(task), Some(library), Ok(rounds)) = (task, library, rounds.parse()) {
                counted(task, library, &Work::new(380, 1, 401), rounds);
                return ExitCode::SUCCESS;
            }
        }
        _ => {}
    }
    let names: Vec<&str> = TASKS.iter().map(|task| task.name).collect();
    eprintln!(
        "bench\nbench count {} ours|straight|pairs ROUNDS",
        names.join("|")
    );
    ExitCode::from(2)
}

/// The rounds alone, under a name of their own, so that callgrind can leave the rest out.
#[inline(never)]
fn counted(task: &Task, library: &Library, work: &Work, rounds: usize) {
    for _ in 0..rounds {
        (task.round)(library, work);
    }
}

/// Nanoseconds for one item, the best of all rounds. The rivals take turns, so that a noisy moment
/// falls on all of them.
fn best<const N: usize>(mut rivals: [&mut dyn FnMut(); N]) -> [f64; N] {
    let mut best = [f64::INFINITY; N];
    for _ in 0..ROUNDS {
        for (rival, best) in rivals.iter_mut().zip(&mut best) {
            let begin = Instant::now();
            rival();
            *best = best.min(begin.elapsed().as_secs_f64() * NS_A_SECOND / ITEMS as f64);
        }
    }
    best
}

/// A ratio to be met, where there is one.
fn shown(target: Option<f64>) -> String {
    target.map_or("-".into(), |target| format!("{target:.2}"))
}

fn print_speed() {
    let work = Work::new(380, 1, 401);
    println!("Start 380, step 1, n = 401; ns for one, best of {ROUNDS} rounds of {ITEMS}\n");
    println!("                                 ours  straight  ours/straight  target      dot");
    let mut reports_a_second = 0.0;
    for task in &TASKS {
        let [ours, straight, dot] = best([
            &mut || (task.round)(&OURS, &work),
            &mut || (task.round)(&STRAIGHT, &work),
            &mut || task.dot.iter().for_each(|dot| dot(&work)),
        ]);
        let target = shown(task.target);
        let dot = task.dot.map_or("-".into(), |_| format!("{dot:.0}"));
        let ratio = ours / straight;
        println!(
            "{:27}{ours:10.0}{straight:10.0}{ratio:15.2}{target:>8}{dot:>9}",
            task.says
        );
        if task.name == REPORT.name {
            reports_a_second = NS_A_SECOND / ours;
        }
    }
    println!("\nRecords that a core reads and reports in a second: {reports_a_second:.0}");
}

/// Records beside a twin that takes two samples at a time too.
fn print_pairs() {
    let work = Work::new(380, 1, 401);
    println!("\nBeside a straightforward twin that takes pairs too; ns for one\n");
    println!("                                 ours     pairs     ours/pairs  target");
    for task in &TASKS {
        let Some(target) = task.pairs_target else {
            continue;
        };
        let [ours, pairs] = best([&mut || (task.round)(&OURS, &work), &mut || {
            (task.round)(&PAIRS, &work)
        }]);
        let ratio = ours / pairs;
        println!(
            "{:27}{ours:10.0}{pairs:10.0}{ratio:15.2}{target:8.2}",
            task.says
        );
    }
}

/// The report beside its two parts.
fn print_report() {
    let work = Work::new(380, 1, 401);
    let [reading, figures, report] = best([
        &mut || (READING.round)(&OURS, &work),
        &mut || (FIGURES.round)(&OURS, &work),
        &mut || (REPORT.round)(&OURS, &work),
    ]);
    let ratio = report / (reading + figures);
    println!("\nA report over reading its record and making its figures: {ratio:.2}, target {REPORT_TARGET:.2}");
}

/// The figures at each step, over one range, beside the straightforward ones.
fn print_steps() {
    println!("\nSeven figures of a spectrum from 380 to 780 nm, by step; ns for one\n");
    println!("step    n      ours  straight  ours/straight  target");
    let round = FIGURES.round;
    let target = shown(FIGURES.target);
    for step in STEPS {
        let count = (780 - 380) / step + 1;
        let work = Work::new(380, step, count as usize);
        let [ours, straight] = best([&mut || round(&OURS, &work), &mut || round(&STRAIGHT, &work)]);
        let ratio = ours / straight;
        println!("{step:4}{count:5}{ours:10.0}{straight:10.0}{ratio:15.2}{target:>8}");
    }
}

fn print_growth() {
    println!("\nGrowth of ours: ns for one\n");
    print!("step  start  last    n");
    for task in &TASKS {
        print!("{:>10}", task.name);
    }
    println!();
    for step in STEPS {
        for (start, last) in [(380, 780), (360, 830), (300, 830)] {
            let count = ((last - start) / step + 1) as usize;
            let work = Work::new(start, step, count);
            print!("{step:4}{start:7}{last:6}{count:5}");
            for task in &TASKS {
                let [ours] = best([&mut || (task.round)(&OURS, &work)]);
                print!("{ours:10.0}");
            }
            println!();
        }
    }
}

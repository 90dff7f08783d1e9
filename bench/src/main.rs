//! Measures check, unpack and pack of packed rows, the check, the repacking and the replacing of a sample of whole modules, and the comparing
//! of two modules: the proved libraries through their C interface, two C implementations and plain Rust.

mod agreement;
mod corpus;
mod implementations;
mod measure;
mod modules;
mod pairs;

use std::process::ExitCode;

use interface::MOST_BYTES;

use corpus::{Corpus, PATTERNS, ROWS, TRACKS};
use implementations::{EXPERT, IMPLEMENTATIONS, OURS, PLAIN};
use measure::{Line, Times};
use modules::Module;
use pairs::Pair;

const DEFAULT_ROUNDS: usize = 200;
/// The long pairs have this length when the implementations are compared. When they are measured they have the maximum length of a module.
const COMPARED_BYTES: usize = 1 << 20;
const USAGE: &str = "usage: bench/run [--rounds N]";

fn main() -> ExitCode {
    let Some(rounds) = rounds(std::env::args().skip(1)) else {
        eprintln!("{USAGE}");
        return ExitCode::from(2);
    };
    let corpora = corpus::corpora();
    let modules = modules::modules(&corpora);
    let mut pairs = pairs::pairs(&corpora, &modules);
    if let Err(difference) = agree(&corpora, &modules, &pairs) {
        eprintln!("the implementations differ: {difference}");
        return ExitCode::FAILURE;
    }
    pairs.extend(pairs::long_pairs(&corpora, MOST_BYTES));
    describe(&corpora, &modules, &pairs, rounds);
    let measured = measure::measure(&corpora, &modules, &pairs, rounds);
    print_table("ns per cell", &measured.patterns);
    println!();
    print_table("Whole modules, µs per module", &measured.modules);
    println!();
    print_table("Whole modules repacked, µs per module", &measured.repacked);
    println!();
    print_table("A sample replaced, µs per module", &measured.replaced);
    println!();
    print_table("Two modules compared, µs per pair", &measured.compared);
    ExitCode::SUCCESS
}

fn agree(corpora: &[Corpus], modules: &[Module], pairs: &[Pair]) -> Result<(), String> {
    let calls = agreement::compare(corpora)?;
    println!("Agreement: {calls} calls, other sizes, every mask, damaged streams and short outputs among them: all four give the same \
              answers and bytes.");
    let upper_bits: Vec<Module> = corpora
        .iter()
        .map(|corpus| modules::of_corpus(&corpus.with_upper_bits()))
        .collect();
    let all: Vec<&Module> = modules.iter().chain(&upper_bits).collect();
    let calls = agreement::compare_modules(&all)?;
    println!("Agreement: {calls} calls on modules, small and damaged ones among them: all four give the same number and place, \
              and each of the numbers 0 to 15 was given.");
    let calls = agreement::compare_repacked(&all)?;
    println!("Agreement: {calls} calls that repack modules, small and damaged ones and short outputs among them: all four give the same answers and bytes.");
    let calls = agreement::compare_replaced(&all)?;
    println!("Agreement: {calls} calls that replace a sample, small and damaged modules and short outputs among them: all four give the same \
              answers and bytes, and each of the numbers 0, 1, 17, 18 and 19 was given.");
    let mut others = pairs::long_pairs(corpora, COMPARED_BYTES);
    others.extend(pairs::with_upper_bits(corpora));
    let calls = agreement::compare_compared(modules, pairs, &others)?;
    println!("Agreement: {calls} calls that compare two modules, small and damaged ones and short outputs among them: all four give the same \
              answers and bytes, each of the numbers 0 to 15 and 17 was given, and entries of each of the kinds 1 to 8.\n");
    Ok(())
}

fn rounds(mut arguments: impl Iterator<Item = String>) -> Option<usize> {
    let Some(option) = arguments.next() else {
        return Some(DEFAULT_ROUNDS);
    };
    let count = arguments.next()?.parse().ok()?;
    let fits = option == "--rounds" && count > 0 && arguments.next().is_none();
    fits.then_some(count)
}

fn describe(corpora: &[Corpus], modules: &[Module], pairs: &[Pair], rounds: usize) {
    println!("Corpora, each {PATTERNS} patterns of {ROWS} rows and {TRACKS} tracks:");
    for corpus in corpora {
        println!(
            "  {}: {} cells, {} of them not empty, {} bytes packed",
            corpus.name,
            corpus.cells(),
            corpus.full_cells(),
            corpus.packed_bytes()
        );
    }
    println!("Modules:");
    for module in modules {
        println!(
            "  {}: {} bytes; {}",
            module.name,
            module.bytes.len(),
            module.holds
        );
    }
    println!("Pairs of modules:");
    for pair in pairs {
        println!(
            "  {}, {}: {} and {} bytes; {}",
            pair.name,
            pair.differs,
            pair.first.len(),
            pair.second.len(),
            pair.holds
        );
    }
    println!(
        "
ours      libpattern.a and libdbm0.a through their C interface
plain C   c/plain.c, c/module.c, c/repack.c, c/replace.c and c/compare.c, gcc -O3 for baseline x86-64 ({})
expert C  c/expert.c, c/module.c, c/repack.c, c/replace.c and c/compare.c, the same compiler and flags
Rust      the crate `reference`, release build ({})

One process, {rounds} rounds. A round takes each corpus and function in turn, and there each implementation over the whole
corpus, in a random order; then each module in turn, and there each implementation, in a random order: first the checks, then
the modules of the corpora repacked, then a sample replaced in these and in the module of samples. Every tenth round also takes
the pairs of modules in turn, except the long ones, which only every hundredth round takes. Times are CPU time of the process
(CLOCK_PROCESS_CPUTIME_ID). Same inputs for all. Outputs are shared, one buffer of just the needed length for each pattern,
module or pair, warmed by one round that does not count, or written once before, and not cleared between calls: an unpacker
clears the cells itself, as a part of its work.
",
        env!("BENCH_GCC"),
        env!("BENCH_RUSTC")
    );
}

fn print_table(unit: &str, lines: &[Line]) {
    println!("{unit}: median over the rounds, and the minimum in brackets.");
    println!("C/ours: time of the better C / time of ours, by the medians, and by the minima in brackets. Over 1, ours is faster.\n");
    print!("{:<28} {:<7}", "corpus", "");
    for implementation in &IMPLEMENTATIONS {
        print!(" {:>17}", implementation.name);
    }
    println!(" {:>13}", "C/ours");
    for line in lines {
        print!("{:<28} {:<7}", line.corpus, line.function);
        for times in &line.times {
            let figures = format!("{} ({})", figure(times.median()), figure(times.minimum()));
            print!(" {figures:>17}");
        }
        let ratios = format!(
            "{:.2} ({:.2})",
            better_c_to_ours(line, Times::median),
            better_c_to_ours(line, Times::minimum)
        );
        println!(" {ratios:>13}");
    }
}

/// At least three digits, if there are that many.
fn figure(time: f64) -> String {
    if time < 100.0 {
        format!("{time:.2}")
    } else {
        format!("{time:.0}")
    }
}

fn better_c_to_ours(line: &Line, of: impl Fn(&Times) -> f64) -> f64 {
    let plain = of(&line.times[PLAIN]);
    let expert = of(&line.times[EXPERT]);
    plain.min(expert) / of(&line.times[OURS])
}

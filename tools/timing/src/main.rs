// timing [SECONDS] [large | sizes]: compile, the check of a table, table run, stations, sheet run, what a call works out before its first
// tick, masks, why a transition stayed put and milliseconds, ours beside the hand-optimised Rust version, in turns on the same sheets,
// inputs and buffers (warm, not cleared). Every word of table, work list, output and state, and every number and reason, is compared
// first.
// With BEFORE_DIR set at build, our operations as they were at an earlier commit are timed in the same turns; with MODEL_DIR, the
// sheet run of the unproved model of patterns/code.
mod acceptance;
#[cfg(before)]
mod before;
mod calls;
mod charts;
mod milliseconds;
#[cfg(model)]
mod model;
mod ours;
mod states;
mod stations;
mod why;
mod within;

use modechart::rng::Rng;
use modechart::*;
use std::hint::black_box;
use std::time::Instant;

const TURNS: usize = 8;

// Calls timed together where one takes less than the clock can tell.
pub const CALLS: usize = 2000;

fn best(budget: f64, mut f: impl FnMut()) -> f64 {
    let start = Instant::now();
    let mut best = f64::MAX;
    let mut turns = 0;
    while turns < 2 || start.elapsed().as_secs_f64() < budget {
        let t = Instant::now();
        f();
        best = best.min(t.elapsed().as_secs_f64());
        turns += 1;
    }
    best
}

// The best time of each of some functions, tried by turns.
fn by_turns(budget: f64, fs: &mut [&mut dyn FnMut()]) -> Vec<f64> {
    let mut bests = vec![f64::MAX; fs.len()];
    for _ in 0..TURNS {
        for (f, b) in fs.iter_mut().zip(&mut bests) {
            *b = b.min(best(budget / TURNS as f64, &mut **f));
        }
    }
    bests
}

struct Chart {
    name: String,
    sheet: Vec<u32>,
    table: Vec<u32>,
    cells: f64,
    inputs: Vec<u32>,
}

type Compile = fn(&[u32], &mut [u32], &mut [u32]) -> (u32, usize, usize);
// Sheet or table, input sets, output words, and the numbers of the alternatives, which a table run leaves.
type Run = fn(&[u32], &[u32], &mut [u32], &mut [u8]) -> (u32, usize);

// An operation under the name of its version. The first version is ours; the others are what it is timed beside.
struct Version<F> {
    name: &'static str,
    call: F,
}

// The edition of the Rust version that has what of document 02 has landed.
fn edition() -> Edition {
    Edition::of(&asks_given(include_str!("../../landed.txt").trim()).unwrap())
}

fn rust_compile(sheet: &[u32], table: &mut [u32], work: &mut [u32]) -> (u32, usize, usize) {
    let c = fast::compile_in(sheet, table, work, edition());
    (0, c.f, c.length)
}

fn rust_table_run(table: &[u32], inputs: &[u32], out: &mut [u32], _: &mut [u8]) -> (u32, usize) {
    (0, fast::run_table_in(table, TableState::FRESH, inputs, out, edition()).done)
}

fn rust_sheet_run(sheet: &[u32], inputs: &[u32], out: &mut [u32], numbers: &mut [u8]) -> (u32, usize) {
    (0, fast::run_sheet_in(sheet, SheetState::FRESH, inputs, out, numbers, edition()).done)
}

fn compiles() -> Vec<Version<Compile>> {
    vec![
        Version { name: "ours", call: ours::compile },
        Version { name: "Rust", call: rust_compile },
        #[cfg(before)]
        Version { name: "before", call: before::compile },
    ]
}

fn table_runs() -> Vec<Version<Run>> {
    vec![
        Version { name: "ours", call: ours::table_run },
        Version { name: "Rust", call: rust_table_run },
        #[cfg(before)]
        Version { name: "before", call: before::table_run },
    ]
}

fn sheet_runs() -> Vec<Version<Run>> {
    vec![
        Version { name: "ours", call: ours::sheet_run },
        Version { name: "Rust", call: rust_sheet_run },
        #[cfg(before)]
        Version { name: "before", call: before::sheet_run },
        #[cfg(model)]
        Version { name: "model", call: model::sheet_run },
    ]
}

// A row: each version's speed, and ours as a multiple of the others'.
fn print_row<F>(chart: &str, unit: &str, versions: &[Version<F>], amount: f64, times: &[f64]) {
    print!("{:20} {:24}", chart, unit);
    for (v, t) in versions.iter().zip(times) {
        print!("  {} {:8.2}", v.name, amount / t);
    }
    for (v, t) in versions.iter().zip(times).skip(1) {
        print!("  ours : {} {:5.2}", v.name, t / times[0]);
    }
    println!();
}

fn compiled(name: String, sheet: Vec<u32>, budget: f64) -> Chart {
    let versions = compiles();
    let length = rust_compile(&sheet, &mut vec![0u32; 80 << 20], &mut vec![0u32; 4095]).2;
    let mut lent: Vec<_> = versions.iter().map(|_| (vec![0u32; length], vec![0u32; 4095])).collect();
    let answers: Vec<_> = versions.iter().zip(&mut lent).map(|(v, (table, work))| (v.call)(&sheet, table, work)).collect();
    assert!(answers.iter().all(|a| *a == answers[0]) && lent.iter().all(|l| *l == lent[0]));
    let mut turns: Vec<_> = versions.iter().zip(&mut lent)
        .map(|(v, (table, work))| || { black_box((v.call)(black_box(&sheet), table, work)); }).collect();
    let t = by_turns(budget, &mut turns.iter_mut().map(|f| f as &mut dyn FnMut()).collect::<Vec<_>>());
    drop(turns);
    let f = answers[0].1;
    let cells = (length - 4 - sheet[2] as usize - 5 * (f + 1)) as f64 / 6e6;
    print_row(&name, "compile, M cells/s", &versions, cells, &t);
    let mut r = Rng::new(9);
    let inputs = (0..1 << 18).map(|_| r.below(1 << sheet[1])).collect();
    Chart { name, table: lent.swap_remove(0).0, cells, sheet, inputs }
}

// The same with no table word lent, so that the walk ends in 10 and no table is written.
fn time_walks(c: &Chart, budget: f64) {
    let versions = compiles();
    let mut works: Vec<_> = versions.iter().map(|_| vec![0u32; 4095]).collect();
    let mut turns: Vec<_> = versions.iter().zip(&mut works)
        .map(|(v, work)| || { black_box((v.call)(black_box(&c.sheet), &mut [], work)); }).collect();
    let t = by_turns(budget, &mut turns.iter_mut().map(|f| f as &mut dyn FnMut()).collect::<Vec<_>>());
    drop(turns);
    assert!(works.iter().all(|w| *w == works[0]));
    print_row(&c.name, "walk alone, M cells/s", &versions, c.cells, &t);
}

// The best time of each version of a run, by turns.
fn run_times(versions: &[Version<Run>], words: &[u32], inputs: &[u32], budget: f64) -> Vec<f64> {
    let mut lent: Vec<_> = versions.iter().map(|_| (vec![0u32; 5 * inputs.len()], vec![10u8; 64 * inputs.len()])).collect();
    for (v, (out, numbers)) in versions.iter().zip(&mut lent) {
        assert_eq!((v.call)(words, inputs, out, numbers), (0, inputs.len()));
    }
    let same = |v: &Version<Run>, (out, numbers): &(Vec<u32>, Vec<u8>)| {
        *out == lent[0].0 && (*numbers == lent[0].1 || v.name == "model")       // the model names no alternatives
    };
    assert!(versions.iter().zip(&lent).all(|(v, l)| same(v, l)));
    let mut turns: Vec<_> = versions.iter().zip(&mut lent)
        .map(|(v, (out, numbers))| || { black_box((v.call)(black_box(words), inputs, out, numbers)); }).collect();
    by_turns(budget, &mut turns.iter_mut().map(|f| f as &mut dyn FnMut()).collect::<Vec<_>>())
}

// Ticks per second, the cost of a call without ticks (the layout check) counted apart.
fn time_table_runs(c: &Chart, budget: f64) {
    let versions = table_runs();
    let checks = run_times(&versions, &c.table, &[], budget / 2.0);
    let whole = run_times(&versions, &c.table, &c.inputs, budget);
    let ticks: Vec<_> = whole.iter().zip(&checks).map(|(t, e)| t - e).collect();
    print_row(&c.name, "table run, M ticks/s", &versions, c.inputs.len() as f64 / 1e6, &ticks);
    print_row(&c.name, "layout check, M words/s", &versions, c.table.len() as f64 / 1e6, &checks);
}

// Ticks per second, and runs without a tick: what a call works out before its first tick, the sheet's check and its plan.
fn time_sheet_runs(c: &Chart, budget: f64) {
    let versions = sheet_runs();
    let t = run_times(&versions, &c.sheet, &c.inputs, budget);
    print_row(&c.name, "sheet run, M ticks/s", &versions, c.inputs.len() as f64 / 1e6, &t);
    let before = empty_run_times(&versions, &c.sheet, budget);
    print_row(&c.name, "check and plan, M/s", &versions, CALLS as f64 / 1e6, &before);
}

// The best time of many runs without a tick, by turns.
fn empty_run_times(versions: &[Version<Run>], sheet: &[u32], budget: f64) -> Vec<f64> {
    let mut turns: Vec<_> = versions.iter()
        .map(|v| || for _ in 0..CALLS { black_box((v.call)(black_box(sheet), &[], &mut [], &mut [])); }).collect();
    by_turns(budget, &mut turns.iter_mut().map(|f| f as &mut dyn FnMut()).collect::<Vec<_>>())
}

fn main() {
    let budget: f64 = std::env::args().nth(1).and_then(|x| x.parse().ok()).unwrap_or(1.0);
    let what = std::env::args().nth(2).unwrap_or_default();
    if what == "sizes" {
        for (name, sheet) in charts::sizes() {
            let c = compiled(name, sheet, budget);
            time_walks(&c, budget);
            acceptance::time_acceptance(&c, budget);
        }
        return;
    }
    for (name, sheet) in charts::charts(what == "large") {
        let c = compiled(name.to_string(), sheet, budget);
        acceptance::time_acceptance(&c, budget);
        states::compare_states(&c);
        time_table_runs(&c, budget);
        stations::time_stations(&c, budget);
        time_sheet_runs(&c, budget);
        within::time_masks(&c.name, &c.sheet, budget);
        why::time_reasons(&c, budget);
    }
    milliseconds::time_conversions(budget);
}

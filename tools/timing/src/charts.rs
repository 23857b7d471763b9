// The charts of the peer's own timing program, and one that waits.
use modechart::gensheet as g;
use modechart::rng::Rng;
use modechart::*;

// Two parallel levels, exits across levels, chains of terms, timers: the largest table of 400 drawn charts.
fn nested() -> Vec<u32> {
    let mut pick: (usize, Vec<u32>) = (0, vec![]);
    for seed in 0..400 {
        let sheet = g::grown(&mut Rng::new(seed));
        if sheet[2] < 12 {
            continue;
        }
        let c = fast::compile_in(&sheet, &mut vec![0; 1 << 22], &mut vec![0; 4095], crate::edition());
        if c.refusal == 0 && c.length > pick.0 {
            pick = (c.length, sheet);
        }
    }
    pick.1
}

// Every region's moves look at the moves of the region before: long reactions.
fn chain() -> Vec<u32> {
    let mut d = g::regions(&[2; 10], 2);
    let at = 11u32;
    d.trans.push((at, at + 1, vec![(1, 0), (2, 1)]));
    d.trans.push((at + 1, at, vec![(2, 0), (1, 1)]));
    for i in 1..10u32 {
        let (a, b) = (at + 2 * i, at + 2 * i + 1);
        let (pa, pb) = (a - 2, b - 2);
        d.trans.push((a, b, vec![(4, pb), (5, pa), (7, 0), (6, 2 * (i - 1)), (1, 0)]));
        d.trans.push((b, a, vec![(4, pa), (5, pb), (3, 1 << pa | 1 << pb)]));
    }
    d.words()
}

// Six timers that run for long: nearly every tick stays in its block.
fn waiting() -> Vec<u32> {
    let mut d = g::regions(&[2; 6], 0);
    for i in 0..6u32 {
        let (a, b) = (7 + 2 * i, 8 + 2 * i);
        d.trans.push((a, b, vec![(0, 1000 + 7 * i)]));
        d.trans.push((b, a, vec![(0, 1000 + 11 * i)]));
    }
    d.words()
}

// 32 modes in one chain: serial mode i has serial mode i + 1 and an atomic mode within it. 64 timers go from each atomic mode to
// the four above it, and from the lower ones to the next below: their meeting modes are up to 15 levels apart.
fn one_chain() -> Vec<u32> {
    let inner = |i: u32| if i == 0 { 0 } else { 2 * i - 1 };
    let atom = |i: u32| if i < 15 { 2 * i + 2 } else { 31 };
    let mut words = vec![32, 0, 64, 1, 0, 1];
    for i in 1..=15 {
        words.extend([1, inner(i - 1), if i < 15 { inner(i + 1) } else { atom(i) }]);
        words.extend([0, inner(i - 1), 0]);
    }
    words.extend([0, inner(15), 0]);
    let mut records = vec![];
    for i in 0..16 {
        for up in 1..=i.min(4) {
            records.push([atom(i), atom(i - up), 0, up + i]);
        }
        if (5..15).contains(&i) {
            records.push([atom(i), atom(i + 1), 0, 3]);
        }
    }
    assert_eq!(records.len(), 64);
    let at = words.len() as u32 + 2 * 64;
    words.extend((0..64).flat_map(|t| [at + 4 * t, 4]));
    words.extend(records.concat());
    words
}

// Rows that show the loss of what no contract sees: the hints of listed sets, compile on rings; one tick for cells alike, compile on
// timer rings with k = 3 and 6; the plan's hits, sheet run and compile on event rings; what a round can trigger next, sheet run on the
// chain; the next deadline, sheet run on the chart that waits; the test for a tick that stays in its block, table run on that chart;
// work that goes by pairs of transitions or by climbing from mode to mode, check and plan on the one chain.
pub fn charts(large: bool) -> Vec<(&'static str, Vec<u32>)> {
    let example = vec![3, 1, 2, 1, 0, 1, 0, 0, 0, 0, 0, 0, 16, 4, 20, 4, 1, 2, 1, 0, 2, 1, 0, 2];
    let mut charts = vec![
        ("example", example),
        ("chain, k = 2", chain()),
        ("nested, k = 3", nested()),
        ("event rings, k = 6", g::rings(&[4, 4, 4, 4, 4, 2]).words()),
        ("timer rings, k = 0", g::timer_rings(&[4, 4, 4, 4, 4, 3], 0).words()),
        ("timer rings, k = 3", g::timer_rings(&[4, 4, 4, 4, 4, 3], 3).words()),
        ("waiting, k = 0", waiting()),
        ("one chain, k = 0", one_chain()),
    ];
    if large {
        charts.push(("timer rings, k = 6", g::timer_rings(&[4, 4, 4, 4, 4, 3], 6).words()));
    }
    charts
}

// Rings that differ in how many sets compile lists: what a cell costs should not hang on it.
pub fn sizes() -> Vec<(String, Vec<u32>)> {
    let timers: [&[u32]; 11] = [
        &[5, 2], &[10, 10], &[14, 14], &[5, 2, 2], &[7, 7, 7], &[9, 9, 9], &[2, 2, 2, 2, 2, 2], &[3, 3, 3, 3, 2, 2],
        &[4, 4, 4, 4, 2, 2], &[4, 4, 4, 4, 4, 3], &[6, 5, 5, 3, 3, 3],
    ];
    let events: [&[u32]; 4] = [&[2, 2, 2, 2, 2, 2], &[4, 4, 2, 2, 2, 2], &[4, 4, 4, 4, 2, 2], &[4, 4, 4, 4, 4, 2]];
    let name = |kind: &str, of: &[u32]| format!("{} {} rings, {}", of.len(), kind, of.iter().product::<u32>());
    let timer_rings = timers.iter().map(|of| (name("timer", of), g::timer_rings(of, 0).words()));
    timer_rings.chain(events.iter().map(|of| (name("event", of), g::rings(of).words()))).collect()
}

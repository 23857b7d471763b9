// Six stations on one table: ours and the Rust version's, and beside them our own table run on the same input sets, a run for each station.
use crate::states::{state_words, STATE_WORDS};
use crate::{by_turns, edition, ours, print_row, Chart, Version};
use modechart::{fast, TableState};
use std::hint::black_box;

const STATIONS: usize = 6;

// As the archive lays it out.
#[repr(C)]
#[derive(Clone, Copy, PartialEq, Debug)]
struct Station {
    state: [u32; STATE_WORDS],
    position: u32,
    mark: u32,
    in_start: u32,
    in_length: u32,
    out_start: u32,
    out_length: u32,
}

extern "C" {
    fn modechart_stations(
        stations: *mut Station, stations_len: usize,
        table: *const u32, table_len: usize,
        inputs: *const u32, inputs_len: usize,
        out: *mut u32, out_len: usize,
        allowance: u64,
        spent: *mut u64,
    ) -> u32;
}

// refusal, allowance spent
fn serve(table: &[u32], stations: &mut [Station], inputs: &[u32], out: &mut [u32], allowance: u64) -> (u32, u64) {
    let mut spent = 0u64;
    let refusal = unsafe {
        modechart_stations(
            stations.as_mut_ptr(), stations.len(),
            table.as_ptr(), table.len(),
            inputs.as_ptr(), inputs.len(),
            out.as_mut_ptr(), out.len(),
            allowance,
            &mut spent,
        )
    };
    (refusal, spent)
}

fn rust_serve(table: &[u32], stations: &mut [fast::Station], inputs: &[u32], out: &mut [u32], allowance: u64) -> (u32, u64) {
    let served = fast::serve(table, stations, inputs, out, allowance, edition());
    (served.refusal, served.spent)
}

// Stations at power-on, each with so many of the input sets.
fn lent(sets: usize) -> (Vec<Station>, Vec<fast::Station>) {
    (0..STATIONS).map(|i| {
        let [in_start, in_length, out_start, out_length] = [i * sets, sets, 5 * i * sets, 5 * sets].map(|n| n as u32);
        (
            Station { state: [0; STATE_WORDS], position: 0, mark: 0, in_start, in_length, out_start, out_length },
            fast::Station {
                state: TableState::FRESH, position: 0, mark: 0,
                in_from: in_start, in_count: in_length, out_from: out_start, out_count: out_length,
            },
        )
    }).unzip()
}

fn same(a: &Station, b: &fast::Station) -> bool {
    (a.state, a.position, a.mark) == (state_words(b.state.block, &b.state.readings, &b.state.ages), b.position, b.mark)
}

// Calls one after the other, some of them with a foreign input set, until nobody has work.
fn compare(c: &Chart) {
    let sets = 500;
    let mut inputs = c.inputs[..STATIONS * sets].to_vec();
    inputs[4 * sets + 300] = 1 << c.sheet[1];
    let (mut a, mut b) = lent(sets);
    let (mut out_a, mut out_b) = (vec![7u32; 5 * inputs.len()], vec![7u32; 5 * inputs.len()]);
    for allowance in [0, 1, 5, 6, 7, 60, 301, 1000, u64::MAX] {
        let served = serve(&c.table, &mut a, &inputs, &mut out_a, allowance);
        assert_eq!(served, rust_serve(&c.table, &mut b, &inputs, &mut out_b, allowance));
        assert!(a.iter().zip(&b).all(|(x, y)| same(x, y)) && out_a == out_b);
    }
}

// Ticks per second: all input sets in one call, the cost of the layout check counted apart, and calls of 60 ticks with that check.
pub fn time_stations(c: &Chart, budget: f64) {
    compare(c);
    let sets = c.inputs.len() / STATIONS;
    let inputs = &c.inputs[..STATIONS * sets];
    let (a, b) = lent(sets);
    let mut outs: Vec<_> = (0..3).map(|_| vec![0u32; 5 * inputs.len()]).collect();
    let [out_a, out_b, out_r] = &mut outs[..] else { unreachable!() };
    let check = by_turns(budget / 4.0, &mut [
        &mut || { black_box(ours::table_run(black_box(&c.table), &[], &mut [], &mut [])); },
        &mut || { black_box(fast::run_table_in(black_box(&c.table), TableState::FRESH, &[], &mut [], edition())); },
    ]);
    let mut t = by_turns(budget, &mut [
        &mut || { serve(black_box(&c.table), &mut a.clone(), inputs, out_a, u64::MAX); },
        &mut || { rust_serve(black_box(&c.table), &mut b.clone(), inputs, out_b, u64::MAX); },
        &mut || for i in 0..STATIONS {
            ours::table_run(black_box(&c.table), &inputs[i * sets..][..sets], &mut out_r[5 * i * sets..][..5 * sets], &mut []);
        },
    ]);
    for (t, checks) in t.iter_mut().zip([check[0], check[1], STATIONS as f64 * check[0]]) {
        *t -= checks;
    }
    let names = ["ours", "Rust", "run"].map(|name| Version { name, call: () });
    print_row(&c.name, "six stations, M ticks/s", &names, inputs.len() as f64 / 1e6, &t);
    let (mut some_a, mut some_b) = (a.clone(), b.clone());
    let t = by_turns(budget / 2.0, &mut [
        &mut || {
            if some_a[0].position as usize + 10 > sets { some_a.copy_from_slice(&a) }
            serve(black_box(&c.table), &mut some_a, inputs, out_a, 60);
        },
        &mut || {
            if some_b[0].position as usize + 10 > sets { some_b.copy_from_slice(&b) }
            rust_serve(black_box(&c.table), &mut some_b, inputs, out_b, 60);
        },
    ]);
    print_row(&c.name, "60 a call, M ticks/s", &names[..2], 60.0 / 1e6, &t);
}

// The check of a table from elsewhere: ours and the Rust version's, on the same sheet and table.
use crate::{by_turns, edition, print_row, Chart, Version};
use modechart::fast;
use std::hint::black_box;

extern "C" {
    fn modechart_accept(sheet: *const u32, sheet_len: usize, table: *const u32, table_len: usize) -> u32;
}

type Accept = fn(&[u32], &[u32]) -> u32;

fn ours(sheet: &[u32], table: &[u32]) -> u32 {
    unsafe { modechart_accept(sheet.as_ptr(), sheet.len(), table.as_ptr(), table.len()) }
}

fn rust(sheet: &[u32], table: &[u32]) -> u32 {
    fast::check_foreign(sheet, table, edition())
}

// Of the chart's own table, and, compared only, of tables with one word other.
pub fn time_acceptance(c: &Chart, budget: f64) {
    let versions: [Version<Accept>; 2] = [Version { name: "ours", call: ours }, Version { name: "Rust", call: rust }];
    assert_eq!((ours(&c.sheet, &c.table), rust(&c.sheet, &c.table)), (0, 0));
    let mut other = c.table.clone();
    for place in (0..other.len()).step_by(other.len() / 50 + 1) {
        other[place] ^= 1;
        let answer = ours(&c.sheet, &other);
        assert!(answer != 0 && answer == rust(&c.sheet, &other));
        other[place] ^= 1;
    }
    let mut turns: Vec<_> = versions.iter()
        .map(|v| || { black_box((v.call)(black_box(&c.sheet), black_box(&c.table))); }).collect();
    let t = by_turns(budget, &mut turns.iter_mut().map(|f| f as &mut dyn FnMut()).collect::<Vec<_>>());
    print_row(&c.name, "table check, M cells/s", &versions, c.cells, &t);
}

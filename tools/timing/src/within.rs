// The masks of the modes within each mode: ours and the Rust version's, on the same sheet.
use crate::{by_turns, print_row, Version, CALLS};
use modechart::fast;
use std::hint::black_box;

extern "C" {
    fn modechart_within(sheet: *const u32, sheet_len: usize, masks: *mut u32, masks_len: usize) -> u32;
}

// refusal, masks
type Masks = fn(&[u32]) -> (u32, [u32; 32]);

fn ours(sheet: &[u32]) -> (u32, [u32; 32]) {
    let mut masks = [0u32; 32];
    let refusal = unsafe { modechart_within(sheet.as_ptr(), sheet.len(), masks.as_mut_ptr(), masks.len()) };
    (refusal, masks)
}

fn rust(sheet: &[u32]) -> (u32, [u32; 32]) {
    fast::within(sheet).map_or_else(|e| (e, [0; 32]), |(_, masks)| (0, masks))
}

pub fn time_masks(chart: &str, sheet: &[u32], budget: f64) {
    let versions: [Version<Masks>; 2] = [Version { name: "ours", call: ours }, Version { name: "Rust", call: rust }];
    assert_eq!(ours(sheet), rust(sheet));
    let mut turns: Vec<_> = versions.iter()
        .map(|v| || for _ in 0..CALLS { black_box((v.call)(black_box(sheet))); }).collect();
    let t = by_turns(budget, &mut turns.iter_mut().map(|f| f as &mut dyn FnMut()).collect::<Vec<_>>());
    print_row(chart, "masks, M/s", &versions, CALLS as f64 / 1e6, &t);
}

// Delays in milliseconds: ours and the Rust version's, on the same delays and result words.
use crate::{by_turns, print_row, Version};
use modechart::fast;
use modechart::rng::Rng;
use std::hint::black_box;

extern "C" {
    fn modechart_milliseconds(
        tick: u32,
        delays: *const u32, delays_len: usize,
        results: *mut u32, results_len: usize,
    ) -> u32;
}

type Convert = fn(u32, &[u32], &mut [u32]) -> u32;

fn ours(tick: u32, delays: &[u32], results: &mut [u32]) -> u32 {
    unsafe { modechart_milliseconds(tick, delays.as_ptr(), delays.len(), results.as_mut_ptr(), results.len()) }
}

pub fn time_conversions(budget: f64) {
    let versions: [Version<Convert>; 2] =
        [Version { name: "ours", call: ours }, Version { name: "Rust", call: fast::milliseconds }];
    let (tick, mut r) = (250, Rng::new(5));
    for (name, count) in [("64 delays", 64), ("4,096 delays", 4096)] {
        let delays: Vec<u32> = (0..count).map(|_| r.below(65_536 * tick)).collect();
        let mut lent = vec![vec![0u32; 2 * count]; 2];
        for (v, results) in versions.iter().zip(&mut lent) {
            assert_eq!((v.call)(tick, &delays, results), 0);
        }
        assert_eq!(lent[0], lent[1]);
        let mut turns: Vec<_> = versions.iter().zip(&mut lent)
            .map(|(v, results)| || { black_box((v.call)(black_box(tick), black_box(&delays), results)); }).collect();
        let t = by_turns(budget, &mut turns.iter_mut().map(|f| f as &mut dyn FnMut()).collect::<Vec<_>>());
        print_row(name, "milliseconds, M delays/s", &versions, count as f64 / 1e6, &t);
    }
}

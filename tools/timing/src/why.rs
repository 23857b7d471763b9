// Why a transition stayed put: ours and the Rust version's, on the same states, input sets and transitions.
use crate::states::{state_words, STATE_WORDS};
use crate::{by_turns, edition, print_row, Chart, Version};
use modechart::fast::{self, Why};
use modechart::rng::Rng;
use modechart::SheetState;
use std::hint::black_box;

extern "C" {
    fn modechart_why(
        sheet: *const u32, sheet_len: usize,
        state: *const u32, state_len: usize,
        input: u32,
        transition: u32,
        info: *mut u64, info_len: usize,
    ) -> u32;
}

const QUESTIONS: usize = 256;

// A state, also as the words that ours reads, an input set and a transition.
struct Question {
    state: SheetState,
    words: [u32; STATE_WORDS],
    input: u32,
    transition: u32,
}

// refusal; the reason's number and its two values
type Ask = fn(&[u32], &Question) -> (u32, [u64; 3]);

fn ours(sheet: &[u32], q: &Question) -> (u32, [u64; 3]) {
    let mut info = [0u64; 3];
    let refusal = unsafe {
        modechart_why(
            sheet.as_ptr(), sheet.len(),
            q.words.as_ptr(), q.words.len(),
            q.input,
            q.transition,
            info.as_mut_ptr(), info.len(),
        )
    };
    (refusal, info)
}

fn rust(sheet: &[u32], q: &Question) -> (u32, [u64; 3]) {
    fast::why(sheet, &q.state, q.input, q.transition, edition()).map_or_else(|e| (e, [0; 3]), |why| (0, reason(why)))
}

fn reason(why: Why) -> [u64; 3] {
    match why {
        Why::NeverActive => [0, 0, 0],
        Why::NeverTriggered => [1, 0, 0],
        Why::GaveWay { to } => [2, to as u64, 0],
        Why::Taken { round, alternative } => [3, round as u64, alternative as u64],
    }
}

// The state after 20 ticks from power-on on the input sets from `first` on, and the input set that follows.
fn question(c: &Chart, first: usize, transition: u32) -> Question {
    let (mut out, mut numbers) = ([0u32; 100], [0u8; 1280]);
    let inputs = &c.inputs[first..first + 20];
    let state = fast::run_sheet_in(&c.sheet, SheetState::FRESH, inputs, &mut out, &mut numbers, edition()).state;
    let words = state_words(state.set, &state.readings, &state.ages);
    Question { state, words, input: c.inputs[first + 20], transition }
}

// Of a transition in each of some states and, compared only, of every transition there and of T, which is refused.
pub fn time_reasons(c: &Chart, budget: f64) {
    let transitions = c.sheet[2];
    if transitions == 0 {
        return;
    }
    let versions: [Version<Ask>; 2] = [Version { name: "ours", call: ours }, Version { name: "Rust", call: rust }];
    let mut r = Rng::new(4);
    let questions: Vec<_> = (0..QUESTIONS).map(|first| question(c, first, r.below(transitions))).collect();
    for q in &questions {
        assert_eq!(ours(&c.sheet, q), rust(&c.sheet, q));
        for transition in 0..=transitions {
            let other = Question { transition, ..*q };
            assert_eq!(ours(&c.sheet, &other), rust(&c.sheet, &other));
        }
    }
    let mut turns: Vec<_> = versions.iter()
        .map(|v| || for q in &questions { black_box((v.call)(black_box(&c.sheet), black_box(q))); }).collect();
    let t = by_turns(budget, &mut turns.iter_mut().map(|f| f as &mut dyn FnMut()).collect::<Vec<_>>());
    print_row(&c.name, "why, M calls/s", &versions, QUESTIONS as f64 / 1e6, &t);
}

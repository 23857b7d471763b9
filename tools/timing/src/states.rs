// The states that runs return, readings and ages too: ours and the Rust version's, passed on from run to run.
use crate::{edition, ours, Chart};
use modechart::{fast, SheetState, TableState};

// As ours has it: the mode set or block, 64 readings, 32 ages.
pub const STATE_WORDS: usize = 97;

pub fn state_words(at: u32, readings: &[u32; 64], ages: &[u32; 32]) -> [u32; STATE_WORDS] {
    let mut words = [at; STATE_WORDS];
    words[1..65].copy_from_slice(readings);
    words[65..].copy_from_slice(ages);
    words
}

// After runs of 1, 2, 4, .. of the chart's input sets, of its table and of its sheet, the first from power-on.
pub fn compare_states(c: &Chart) {
    let (mut table_state, mut table_words) = (TableState::FRESH, [0u32; STATE_WORDS]);
    let (mut sheet_state, mut sheet_words) = (SheetState::FRESH, [0u32; STATE_WORDS]);
    let (mut rest, mut many) = (&c.inputs[..], 1);
    while !rest.is_empty() {
        let (inputs, later) = rest.split_at(many.min(rest.len()));
        let (mut out, mut numbers) = (vec![0u32; 5 * inputs.len()], vec![0u8; 64 * inputs.len()]);
        table_state = fast::run_table_in(&c.table, table_state, inputs, &mut out, edition()).state;
        assert_eq!(ours::table_run_from(&c.table, &mut table_words, inputs, &mut out), (0, inputs.len()));
        assert_eq!(table_words, state_words(table_state.block, &table_state.readings, &table_state.ages));
        sheet_state = fast::run_sheet_in(&c.sheet, sheet_state, inputs, &mut out, &mut numbers, edition()).state;
        assert_eq!(ours::sheet_run_from(&c.sheet, &mut sheet_words, inputs, &mut out, &mut numbers), (0, inputs.len()));
        assert_eq!(sheet_words, state_words(sheet_state.set, &sheet_state.readings, &sheet_state.ages));
        (rest, many) = (later, 2 * many);
    }
}

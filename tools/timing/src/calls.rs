// The operations of an archive of the crate `native`, under the names that it gives them; last, how many words its states have.
macro_rules! calls {
    ($compile:literal, $table_run:literal, $state_words:literal) => {
        extern "C" {
            #[link_name = $compile]
            fn native_compile(
                sheet: *const u32, sheet_len: usize,
                table: *mut u32, table_len: usize,
                work: *mut u32, work_len: usize,
                info: *mut u64, info_len: usize,
            ) -> u32;
            #[link_name = $table_run]
            fn native_table_run(
                table: *const u32, table_len: usize,
                state: *mut u32, state_len: usize,
                inputs: *const u32, inputs_len: usize,
                out: *mut u32, out_len: usize,
                info: *mut u64, info_len: usize,
            ) -> u32;
        }

        // refusal, f, length
        pub fn compile(sheet: &[u32], table: &mut [u32], work: &mut [u32]) -> (u32, usize, usize) {
            let mut info = [0u64; 2];
            let refusal = unsafe {
                native_compile(
                    sheet.as_ptr(), sheet.len(),
                    table.as_mut_ptr(), table.len(),
                    work.as_mut_ptr(), work.len(),
                    info.as_mut_ptr(), info.len(),
                )
            };
            (refusal, info[0] as usize, info[1] as usize)
        }

        // refusal, ticks done
        #[inline(always)]
        pub fn table_run_from(
            table: &[u32], state: &mut [u32; $state_words], inputs: &[u32], out: &mut [u32],
        ) -> (u32, usize) {
            let mut info = [0u64; 1];
            let refusal = unsafe {
                native_table_run(
                    table.as_ptr(), table.len(),
                    state.as_mut_ptr(), state.len(),
                    inputs.as_ptr(), inputs.len(),
                    out.as_mut_ptr(), out.len(),
                    info.as_mut_ptr(), info.len(),
                )
            };
            (refusal, info[0] as usize)
        }

        // From power-on. A table run has no numbers.
        pub fn table_run(table: &[u32], inputs: &[u32], out: &mut [u32], _: &mut [u8]) -> (u32, usize) {
            table_run_from(table, &mut [0; $state_words], inputs, out)
        }
    };
}

// The sheet run, which names the alternatives that fired.
macro_rules! sheet_calls {
    ($sheet_run:literal, $state_words:literal) => {
        extern "C" {
            #[link_name = $sheet_run]
            fn native_sheet_run(
                sheet: *const u32, sheet_len: usize,
                state: *mut u32, state_len: usize,
                inputs: *const u32, inputs_len: usize,
                out: *mut u32, out_len: usize,
                numbers: *mut u8, numbers_len: usize,
                info: *mut u64, info_len: usize,
            ) -> u32;
        }

        #[inline(always)]
        pub fn sheet_run_from(
            sheet: &[u32], state: &mut [u32; $state_words], inputs: &[u32], out: &mut [u32], numbers: &mut [u8],
        ) -> (u32, usize) {
            let mut info = [0u64; 3];
            let refusal = unsafe {
                native_sheet_run(
                    sheet.as_ptr(), sheet.len(),
                    state.as_mut_ptr(), state.len(),
                    inputs.as_ptr(), inputs.len(),
                    out.as_mut_ptr(), out.len(),
                    numbers.as_mut_ptr(), numbers.len(),
                    info.as_mut_ptr(), info.len(),
                )
            };
            (refusal, info[0] as usize)
        }

        pub fn sheet_run(sheet: &[u32], inputs: &[u32], out: &mut [u32], numbers: &mut [u8]) -> (u32, usize) {
            sheet_run_from(sheet, &mut [0; $state_words], inputs, out, numbers)
        }
    };
}
pub(crate) use {calls, sheet_calls};

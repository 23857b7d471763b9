// The sheet run of the unproved model (patterns/code, built by its own tools/native_lib.sh), which names no alternatives. A slice passes
// as a pointer to pointer and length.
#[repr(C)]
struct Slice(*const u8, usize);

extern "C" {
    fn mc_sheet_run(sheet: *const Slice, state: *const Slice, inputs: *const Slice, out: *const Slice, info: *const Slice);
}

fn lent<T>(x: &[T]) -> Slice {
    Slice(x.as_ptr() as *const u8, x.len())
}

fn lent_mut<T>(x: &mut [T]) -> Slice {
    Slice(x.as_mut_ptr() as *const u8, x.len())
}

pub fn sheet_run(sheet: &[u32], inputs: &[u32], out: &mut [u32], _: &mut [u8]) -> (u32, usize) {
    let (mut state, mut info) = ([0u32; 65], [0u64; 3]);
    unsafe { mc_sheet_run(&lent(sheet), &lent_mut(&mut state), &lent(inputs), &lent_mut(out), &lent_mut(&mut info)) };
    (info[0] as u32, info[1] as usize)
}

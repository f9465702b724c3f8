//! The two functions that libFuzzer calls: one input is checked (`check`), or changed (`mutate`).
//!
//! WKT_FUZZ_OPERATIONS=1,50 in the environment asks for these operations of program.txt and of c_calls.rs alone, and
//! WKT_FUZZ_FIXED=1 for the inputs of fixed.rs before the first.
mod c_arrays;
mod c_calls;
mod c_columns;
mod c_lines;
mod check;
mod fixed;
mod mutate;
mod places;
mod reader;

extern "C" {
    fn LLVMFuzzerMutate(data: *mut u8, size: usize, max_size: usize) -> usize;
}

#[no_mangle]
pub extern "C" fn LLVMFuzzerInitialize(_count: *mut i32, _words: *mut *mut *mut i8) -> i32 {
    if std::env::var_os("WKT_FUZZ_FIXED").is_some_and(|value| !value.is_empty()) {
        fixed::check();
    }
    0
}

#[no_mangle]
pub extern "C" fn LLVMFuzzerTestOneInput(data: *const u8, size: usize) -> i32 {
    let data = if size == 0 { &[] } else { unsafe { std::slice::from_raw_parts(data, size) } };
    check::all(data);
    0
}

#[no_mangle]
pub extern "C" fn LLVMFuzzerCustomMutator(data: *mut u8, size: usize, max: usize, seed: u32) -> usize {
    let mut random = mutate::Random::new(seed);
    if random.below(2) == 0 {
        return unsafe { LLVMFuzzerMutate(data, size, max) };
    }
    let room = unsafe { std::slice::from_raw_parts_mut(data, max) };
    let made = mutate::by_lexemes(&room[..size], &mut random);
    let length = made.len().min(max);
    room[..length].copy_from_slice(&made[..length]);
    length
}

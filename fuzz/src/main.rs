//! What libFuzzer calls for each input; its own `main` comes from clang's runtime.

#![no_main]

#[no_mangle]
#[allow(non_snake_case)]
pub extern "C" fn LLVMFuzzerTestOneInput(data: *const u8, size: usize) -> i32 {
    if size > 0 {
        // SAFETY: libFuzzer lends so many bytes for this call.
        fuzz::compare::input(unsafe { std::slice::from_raw_parts(data, size) });
    }
    0
}

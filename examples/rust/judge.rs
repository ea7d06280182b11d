//! Whether the file named is a sound .zt file. rustc --edition 2021 -L PREFIX/lib -l zt judge.rs
extern "C" {
    fn zt_accept(file: *const u8, length: usize) -> u64;
}
fn main() {
    let file = std::fs::read(std::env::args_os().nth(1).expect("usage: judge PATH")).expect("a file");
    let refusal = unsafe { zt_accept(file.as_ptr(), file.len()) };
    println!("{}", if refusal == 0 { "sound".into() } else { format!("refused {refusal}") });
    std::process::exit((refusal != 0).into());
}

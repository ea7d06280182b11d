//! The decided readings of document 01, as the acceptance check answers them.

#[path = "../../tests/readings/acceptance.rs"]
mod acceptance;

use second::frame::assemble;

/// Number, object and component that the library gives for this manifest at this start.
fn judged(manifest: &[u8], manifest_start: usize) -> (u8, u64, u64) {
    let file = assemble(&vec![0; manifest_start - 8], manifest);
    let answer = against::accept_as(0, &file);
    assert_eq!(against::box_accept(&file), answer.number);
    let number = u8::try_from(answer.number).expect("a refusal's number");
    (number, answer.object, answer.component)
}

//! That the file of stored answers is what the Rust answers today: the program `replay` is held to it with no Rust at
//! hand.

#[test]
fn stored_answers_are_those_of_the_rust() {
    let file = concat!(env!("CARGO_MANIFEST_DIR"), "/../crates/replay/stdin");
    let there = std::fs::read(file).unwrap_or_else(|e| panic!("{file}: {e}"));
    assert!(there == oracle::cases::bytes(), "{file} is not what oracle/program answers would write");
}

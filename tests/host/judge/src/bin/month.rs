//! Prints the month's figures of `policy.bin` and of the traces in the working folder, as the month program does.

use std::fs;

fn main() {
    // "A missing file counts as an empty one."
    let policy = fs::read("policy.bin").unwrap_or_default();
    // "named `00.bin` upward, ending at the first missing name"
    let traces: Vec<Vec<u8>> = (0..).map_while(|number| fs::read(format!("{number:02}.bin")).ok()).collect();
    print!("{}", judge::month::month(&policy, &traces));
}

//! The order of refusals is the one that `docs/FORMATS.md` publishes.

use std::fs;

use yaslaurel::Refusal;

#[test]
fn the_table_of_refusals_has_the_order_of_all() {
    let path = concat!(env!("CARGO_MANIFEST_DIR"), "/../../docs/FORMATS.md");
    let text = fs::read_to_string(path).expect("the formats are in the repository");
    let table = text.split("\n## Refusals\n").nth(1).expect("a section of refusals");
    let numbers = table.lines().filter_map(|line| line.strip_prefix("| ")?.split(' ').next()?.parse().ok());
    // 19 is the month program's alone.
    let published: Vec<u32> = numbers.filter(|number| *number != 19).collect();
    assert_eq!(published, Refusal::all().map(Refusal::number).collect::<Vec<_>>());
    let mut sorted: Vec<Refusal> = (0..100).filter_map(Refusal::from_number).collect();
    sorted.sort();
    assert_eq!(published, sorted.into_iter().map(Refusal::number).collect::<Vec<_>>());
}

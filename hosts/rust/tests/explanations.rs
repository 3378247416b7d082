//! The certificate that `docs/FORMATS.md` checks by hand.

use std::fs;

use yaslaurel::{explain, why, Operation, Session, Verdict};

/// The lines of an alert of the demo, as the program `explain` prints them.
fn lines(image: &[u8], trace: &[u8], receiver: u8) -> String {
    let why = why(image, trace).expect("the last record is an alert");
    assert_eq!(why.receiver, receiver);
    let mut text = format!("alert {} {receiver}\n{why}\n", trace.len() / 8);
    for atom in why.lacked() {
        let chain = explain(image, trace, receiver, atom).expect("accepted").expect("the tag has the atom");
        text += &format!("way {atom} {chain}\n");
    }
    text
}

#[test]
fn the_worked_example_is_that_of_the_demo() -> Result<(), String> {
    let read = |name: &str| fs::read(format!("{}/../../{name}", env!("CARGO_MANIFEST_DIR"))).map_err(|e| e.to_string());
    let (image, trace) = (read("demo/policy.bin")?, read("demo/trace.bin")?);
    let document = String::from_utf8(read("docs/FORMATS.md")?).map_err(|e| e.to_string())?;
    let mut session = Session::start(&image).map_err(|e| e.to_string())?;
    let told: Vec<String> = trace
        .chunks(8)
        .enumerate()
        .filter_map(|(number, record)| {
            let answer = session.step(record).ok().filter(|answer| answer.verdict == Verdict::Alert)?;
            Some(lines(&image, &trace[..8 * (number + 1)], answer.receiver))
        })
        .collect();
    assert_eq!(told.len(), 2);
    assert_eq!(told[0], "alert 12 8\nrule own 1 65535\nlacks 0000003800000006 0\nway 0 0 8 12\n");
    assert_eq!(told[1], "alert 15 14\nrule user 1 65535 14 1\nlacks 0000003800000006 0\nway 0 0 8 12 15\n");
    let indented: String = told[0].lines().map(|line| format!("    {line}\n")).collect();
    assert!(document.contains(&indented), "the document has these lines");
    // The two records that it quotes, and the bytes of container 8, rule 1 and mixture 1.
    let record = |step: usize| Operation::try_from(&trace[8 * (step - 1)..8 * step]);
    assert_eq!(record(8), Ok(Operation::Read { process: 13, object: 0 }));
    assert_eq!(record(12), Ok(Operation::Write { process: 13, object: 8 }));
    for (place, length) in [(66, 6), (106, 6), (138, 8)] {
        let bytes: Vec<String> = image[place..place + length].iter().map(|byte| format!("{byte:02x}")).collect();
        let (spelled, at) = (format!("`{}`", bytes.join(" ")), format!("at byte {place}"));
        assert!(document.contains(&spelled) && document.contains(&at), "{spelled} {at}");
    }
    Ok(())
}

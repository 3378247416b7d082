//! A record is malformed for `Operation` exactly when it is for a session.

use yaslaurel::{matrix_policy, Operation, Refusal, Session};

/// Compares the two readers of a record; whether it is malformed.
fn malformed(session: &mut Session, record: &[u8]) -> bool {
    let refused = session.step(record) == Err(Refusal::OperationRecord);
    match Operation::try_from(record) {
        Ok(operation) => {
            assert!(!refused, "{record:?} is refused by a session");
            assert_eq!(operation.record()[..], *record, "{operation:?}");
        }
        Err(refusal) => {
            assert!(refused, "{record:?} is accepted by a session");
            assert_eq!(refusal, Refusal::OperationRecord);
        }
    }
    refused
}

fn session() -> Session {
    let image = matrix_policy(&[1], &[1], 1).expect("one subject and one object");
    Session::start(&image).expect("the image is accepted")
}

#[test]
fn every_code_with_the_edges_of_every_field() {
    let mut session = session();
    let mut wellformed = [0_u32; 256];
    let numbers = [0_u16, 1, 15, 16, 255, 256, 257, 65534, 65535];
    for code in 0..=255 {
        for second in [0, 1, 255] {
            for (process, object, user) in triples(&numbers) {
                let [p, o, u] = [process, object, user].map(u16::to_le_bytes);
                let record = [code, second, p[0], p[1], o[0], o[1], u[0], u[1]];
                wellformed[usize::from(code)] += u32::from(!malformed(&mut session, &record));
            }
        }
    }
    // Containers 0, 1, 15, 16, 255 for p and o; no user, or users 0, 1, 15 for codes 4 and 6; an end names p twice.
    let expected = |code: usize| match code {
        1..=3 | 5 | 7 | 9 => 25,
        4 | 6 => 75,
        8 => 5,
        _ => 0,
    };
    for (code, count) in wellformed.into_iter().enumerate() {
        assert_eq!(count, expected(code), "code {code}");
    }
}

fn triples(numbers: &[u16]) -> impl Iterator<Item = (u16, u16, u16)> + '_ {
    let pairs = numbers.iter().flat_map(|p| numbers.iter().map(move |o| (*p, *o)));
    pairs.flat_map(|(p, o)| numbers.iter().map(move |u| (p, o, *u)))
}

#[test]
fn random_bytes_of_any_length() {
    let mut session = session();
    let mut state = 0x9e37_79b9_7f4a_7c15_u64;
    let mut accepted = 0;
    for round in 0..400_000_u32 {
        state ^= state << 13;
        state ^= state >> 7;
        state ^= state << 17;
        let mut record = [state.to_le_bytes(), state.rotate_left(29).to_le_bytes()].concat();
        record.truncate(if round % 8 == 0 { (state >> 59) as usize % 17 } else { 8 });
        // Mostly nearly well formed: a small code, a zero, small containers, no user.
        if round % 4 != 0 && record.len() == 8 {
            record[0] %= 11;
            record[1] = 0;
            record[3] = u8::from(record[3] > 250);
            record[5] = u8::from(record[5] > 250);
            record[6..].copy_from_slice(if round % 3 == 0 { &[3, 0] } else { &[255, 255] });
        }
        accepted += u32::from(!malformed(&mut session, &record));
    }
    assert!(accepted > 50_000, "only {accepted} records were well formed");
}

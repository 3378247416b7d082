//! The listing of the watch program.

use std::fmt::Write as _;

use crate::numbers::{RECORD, SESSION};
use crate::session::{outcome, start, step, Outcome};

/// "Words: read, write, append, exec, fork, file, volatile, other (unknown code)." "the listing's words are `end` and
/// `delete`" (change request No. 4).
fn word(code: u8) -> &'static str {
    match code {
        1 => "read",
        2 => "write",
        3 => "append",
        4 => "exec",
        5 => "fork",
        6 => "file",
        7 => "volatile",
        8 => "end",
        9 => "delete",
        _ => "other",
    }
}

/// The listing of a trace: "Fields stand one space apart, and byte 10 ends each line."
pub fn listing(policy: &[u8], trace: &[u8]) -> String {
    let mut text = String::new();
    // "Its buffer" of zeros "is filled by the start."; "The session is now 5,536 numbers long" (change request No. 5).
    let mut session = vec![0; SESSION];
    let refusal = start(policy, &mut session);
    if refusal != 0 {
        // "A refused policy prints only `policy refused` and its number."
        writeln!(text, "policy refused {refusal}").unwrap();
        return text;
    }
    // "The first line names the fields"
    // "headed `pos`" (change request No. 12)
    text.push_str("step op p o verdict at tag pos\n");
    let (mut records, mut alerts, mut refusals) = (0u64, 0u64, 0u64);
    for record in trace.chunks(RECORD) {
        records += 1;
        let answer = step(&mut session, record);
        // "a short last record counts as a step and is listed, behind its step number, as `other 0 0 refused 7`"
        let (op, p, o) = match *record {
            [code, _, p0, p1, o0, o1, _, _] => (word(code), u16::from_le_bytes([p0, p1]), u16::from_le_bytes([o0, o1])),
            _ => ("other", 0, 0),
        };
        write!(text, "{records} {op} {p} {o} ").unwrap();
        // "Fields: step, operation, p, o, verdict, receiver, tag in 16 hexadecimal digits (small letters), or the
        // refusal number."
        let word = match outcome(answer.number) {
            Outcome::Quiet => "quiet",
            Outcome::Alert => {
                alerts += 1;
                "alert"
            }
            // "The listing's verdict word is `blocked`." (change request No. 9); the total has no count of it.
            Outcome::Blocked => "blocked",
            Outcome::Refused => {
                refusals += 1;
                writeln!(text, "refused {}", answer.number).unwrap();
                continue;
            }
        };
        // "Listing lines of steps not refused have it as a last field" (the position, change request No. 12).
        writeln!(text, "{word} {} {:016x} {}", answer.receiver, answer.tag, answer.position).unwrap();
    }
    // "the last gives the number of records, alerts and refusals"
    writeln!(text, "total {records} alerts {alerts} refused {refusals}").unwrap();
    text
}

#[cfg(test)]
mod tests {
    use super::*;

    /// The listing that the paper prints, of `policy.bin` from document 000's matrix.
    #[test]
    fn paper_listing() {
        let mut out = vec![0; crate::numbers::LONGEST_NORMAL];
        let length = crate::matrix::policy(&[5, 3, 2], &[1, 2, 10], 4, &mut out) as usize;
        let steps: [(u8, u16, u16); 6] = [(1, 4, 2), (3, 4, 0), (1, 5, 0), (3, 5, 1), (2, 6, 1), (1, 6, 9)];
        let mut trace = Vec::new();
        for (code, p, o) in steps {
            trace.extend([code, 0]);
            trace.extend(p.to_le_bytes());
            trace.extend(o.to_le_bytes());
            trace.extend([255, 255]);
        }
        let expected = "\
step op p o verdict at tag pos
1 read 4 2 quiet 4 0000000000000004 0
2 append 4 0 quiet 0 0000000000000005 0
3 read 5 0 quiet 5 0000000000000005 0
4 append 5 1 alert 1 0000000000000007 255
5 write 6 1 quiet 1 0000000000000000 0
6 read 6 9 refused 12
total 6 alerts 1 refused 1
";
        assert_eq!(listing(&out[..length], &trace), expected);
    }

    #[test]
    fn short_last_record_and_refused_policy() {
        let empty = crate::normal::encode(&crate::image::Policy {
            containers: vec![],
            users: vec![],
            rules: vec![],
            owners: vec![],
        });
        let expected = "step op p o verdict at tag pos\n1 other 0 0 refused 7\ntotal 1 alerts 0 refused 1\n";
        assert_eq!(listing(&empty, &[1, 0, 0]), expected);
        assert_eq!(listing(&[], &[1, 0, 0]), "policy refused 1\n");
    }
}

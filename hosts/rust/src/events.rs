use crate::layout::{event as at, record};
use crate::{ffi, refusal, Answer, Refusal, Verdict};

/// A record that is not quiet: its place among the records of the call, and its alert, that it is blocked, or its
/// refusal.
pub type Event = (usize, Result<Answer, Refusal>);

/// How many records a call of [`events_in`] judged, and how many events it wrote.
#[derive(Clone, Copy, Debug, PartialEq, Eq)]
pub struct Gathered {
    /// The records that were judged.
    pub taken: usize,
    /// The events that stand at the front of the numbers.
    pub written: usize,
}

/// Judges records one behind the other on a lent session, and writes an event of five numbers for each that is not quiet
/// ([`layout::event`](crate::layout::event)), up to the first record for which there is no room for one more event.
///
/// # Errors
/// [`Refusal::LentLength`] if the session has another length or there is no room for one event, and nothing changes.
///
/// ```
/// use yaslaurel::{event, events_in, matrix_policy, start_in, Gathered, Refusal, SESSION_LENGTH};
/// let mut session = vec![0; SESSION_LENGTH];
/// start_in(&matrix_policy(&[1], &[1], 1)?, &mut session)?;
/// let mut events = [0; 9];
/// assert_eq!(events_in(&mut session, &[0; 24], &mut events)?, Gathered { taken: 1, written: 1 });
/// assert_eq!(event(&events[..5]), (0, Err(Refusal::OperationRecord)));
/// # Ok::<(), Refusal>(())
/// ```
pub fn events_in(session: &mut [u64], records: &[u8], events: &mut [u64]) -> Result<Gathered, Refusal> {
    let (mut taken, mut written) = (0, 0);
    // SAFETY: the slices are valid and aligned for their lengths, the two numbers are ours, and Rust keeps what is
    // written apart from the rest.
    let number = unsafe {
        ffi::yaslaurel_events(
            session.as_mut_ptr(),
            session.len(),
            records.as_ptr(),
            records.len(),
            events.as_mut_ptr(),
            events.len(),
            &mut taken,
            &mut written,
        )
    };
    match number {
        0 => Ok(Gathered { taken, written }),
        number => Err(refusal(number)),
    }
}

/// The event in the five numbers that [`events_in`] wrote.
///
/// # Panics
/// If they are fewer, or no answer of the library.
#[must_use = "it may be an alert"]
pub fn event(numbers: &[u64]) -> Event {
    let number = u32::try_from(numbers[at::ANSWER]).expect("an answer has 32 bits");
    let position = u32::try_from(numbers[at::POSITION]).expect("a position has 32 bits");
    let answer = |verdict| Ok(Answer::new(verdict, numbers[at::RECEIVER], numbers[at::TAG], position));
    let answer = match number {
        ffi::ALERT => answer(Verdict::Alert),
        ffi::BLOCKED => answer(Verdict::Blocked),
        number => Err(refusal(number)),
    };
    (numbers[at::PLACE] as usize, answer)
}

/// The events of all records, with their places among these.
pub(crate) fn gather(session: &mut [u64], records: &[u8]) -> Vec<Event> {
    let mut numbers = [0; 256 * at::LENGTH];
    let (mut found, mut judged) = (Vec::new(), 0);
    while record::LENGTH * judged < records.len() {
        let rest = &records[record::LENGTH * judged..];
        let Gathered { taken, written } = events_in(session, rest, &mut numbers).expect("a session has its length");
        found.extend(numbers.chunks(at::LENGTH).take(written).map(|numbers| {
            let (place, answer) = event(numbers);
            (judged + place, answer)
        }));
        judged += taken;
    }
    found
}

use crate::{ffi, refusal, Refusal};

/// Records of a trace that is trimmed, at most, and bytes that an output for their positions must hold.
pub const TRIM_LIMIT: usize = 256;

/// Trims a trace to its alert: the positions of the records that are kept, rising, counted from 0 in the trace. The last is always
/// kept, and raises an alert; the kept records alone, on a new session of the image, are all accepted, and no single further
/// one can go without that. The call needs about 90 KiB of stack.
///
/// ```
/// use yaslaurel::{matrix_policy, trim, Operation, Refusal};
///
/// // Object 0 may hold itself alone. Process 2 brings object 1 into it.
/// let image = matrix_policy(&[1, 2], &[1, 0], 2)?;
/// let read = |object| Operation::Read { process: 2, object };
/// let operations = [read(0), read(1), read(0), Operation::Append { process: 2, object: 0 }];
/// let trace = operations.map(Operation::record).concat();
/// assert_eq!(trim(&image, &trace), Ok(vec![1, 3]));
/// assert_eq!(trim(&image, &trace[..24]), Err(Refusal::TrimTrace));
/// # Ok::<(), Refusal>(())
/// ```
///
/// # Errors
///
/// The refusals of the image, [`Refusal::ImageLength`] to [`Refusal::UserRule`], then [`Refusal::TrimTrace`].
pub fn trim(image: &[u8], trace: &[u8]) -> Result<Vec<usize>, Refusal> {
    let mut positions = [0; TRIM_LIMIT];
    let kept = trim_into(image, trace, &mut positions)?;
    Ok(positions[..kept].iter().copied().map(usize::from).collect())
}

/// The same into lent memory of at least [`TRIM_LIMIT`] bytes: the positions come to its front, a byte each, and the bytes behind
/// them stay. Gives how many they are.
///
/// ```
/// use yaslaurel::{trim_into, Refusal, TRIM_LIMIT};
/// assert_eq!(trim_into(&[], &[], &mut [0; TRIM_LIMIT - 1]), Err(Refusal::LentLength));
/// ```
///
/// # Errors
///
/// [`Refusal::LentLength`], then as [`trim`].
pub fn trim_into(image: &[u8], trace: &[u8], positions: &mut [u8]) -> Result<usize, Refusal> {
    let mut kept = 0;
    // SAFETY: the slices are valid for their lengths, Rust keeps what is written apart from the rest, and the count is ours.
    let number = unsafe {
        ffi::yaslaurel_trace_trim(
            image.as_ptr(),
            image.len(),
            trace.as_ptr(),
            trace.len(),
            positions.as_mut_ptr(),
            positions.len(),
            &mut kept,
        )
    };
    match number {
        0 => Ok(kept),
        number => Err(refusal(number)),
    }
}

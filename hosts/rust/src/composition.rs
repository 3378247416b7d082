//! Two policies composed.

use crate::layout::atom;
use crate::{ffi, refusal, Refusal, OUTPUT_LENGTH};

/// Whether the owner of each data atom consents.
type Consent = [bool; atom::RUNNING as usize];

/// The normal image of what two policy images permit together. Both have the same containers, with the same kinds and atoms,
/// and as many users; `consent` says for each data atom whether its owner consents.
///
/// At each place for a rule a mixture of either rule's normal form enters if the other rule covers it, or if all its atoms
/// consent, a running atom with its data atom. Where both rules have the same owner he stays, else nobody owns the result. Two
/// mixtures that only overlap do not enter, so a place may end up with a rule without mixtures, which covers nothing.
///
/// Two accepted images give the same bytes in either order, and an image with itself gives its normal image.
///
/// ```
/// use yaslaurel::{compose, matrix_policy, Mixture, Policy, Refusal, Rule};
/// let policy = |rule: Rule| {
///     let mut policy = Policy::new();
///     let ledger = policy.source("ledger")?;
///     let file = policy.file("ledger")?;
///     policy.set_source(file, ledger)?;
///     let report = policy.file("report")?;
///     policy.set_permit_rule(report, rule)?;
///     Ok::<_, Box<dyn std::error::Error>>((policy.image(), ledger))
/// };
/// let (vendor, ledger) = policy(Rule::new([])?)?;
/// let (house, _) = policy(Mixture::of([ledger]).into())?;
///
/// // The vendor's policy does not let the ledger into the report. With the consent of its owner it may go there.
/// let nobody = [false; 32];
/// let mut owner = nobody;
/// owner[0] = true;
/// assert_eq!(compose(&vendor, &house, &nobody)?, yaslaurel::normalise(&vendor)?);
/// assert_eq!(compose(&vendor, &house, &owner)?, yaslaurel::normalise(&house)?);
/// assert_eq!(compose(&house, &vendor, &owner)?, compose(&vendor, &house, &owner)?);
/// assert_eq!(compose(&vendor, &matrix_policy(&[1], &[1], 1)?, &nobody), Err(Refusal::CompositionInput));
/// # Ok::<(), Box<dyn std::error::Error>>(())
/// ```
///
/// # Errors
///
/// As [`check`](crate::check) for the first image, then for the second; then [`Refusal::CompositionInput`] and
/// [`Refusal::CompositionLimit`].
pub fn compose(first: &[u8], second: &[u8], consent: &Consent) -> Result<Vec<u8>, Refusal> {
    let mut out = vec![0; OUTPUT_LENGTH];
    let length = compose_into(first, second, &consent.map(u8::from), &mut out)?;
    out.truncate(length);
    Ok(out)
}

/// Writes the normal image of what two policy images permit together to the front of an output of [`OUTPUT_LENGTH`] bytes or
/// more, and gives its length. The bytes behind it stay; a refusal changes none. The consent is 32 bytes, each 0 or 1.
///
/// ```
/// use yaslaurel::{compose_into, matrix_policy, Refusal, OUTPUT_LENGTH};
/// let image = matrix_policy(&[1], &[1], 1)?;
/// let mut out = vec![0; OUTPUT_LENGTH];
/// assert_eq!(compose_into(&image, &image, &[0; 32], &mut out), Ok(image.len()));
/// assert_eq!(compose_into(&image, &image, &[0; 31], &mut out), Err(Refusal::CompositionInput));
/// assert_eq!(compose_into(&image, &image, &[0; 32], &mut out[1..]), Err(Refusal::LentLength));
/// # Ok::<(), Refusal>(())
/// ```
///
/// # Errors
///
/// [`Refusal::LentLength`] for a short output, else as [`compose`].
#[inline]
pub fn compose_into(first: &[u8], second: &[u8], consent: &[u8], out: &mut [u8]) -> Result<usize, Refusal> {
    let mut length = 0;
    // SAFETY: the slices are valid for their lengths, the number is ours, and Rust keeps `out` apart from the others.
    let number = unsafe {
        ffi::yaslaurel_image_compose(
            first.as_ptr(),
            first.len(),
            second.as_ptr(),
            second.len(),
            consent.as_ptr(),
            consent.len(),
            out.as_mut_ptr(),
            out.len(),
            &mut length,
        )
    };
    match number {
        0 => Ok(length),
        number => Err(refusal(number)),
    }
}

//! Images of the edition before owners: they begin with 4, and a rule record has four bytes. A host's own reading of an old format: the
//! library refuses such an image by 2.

use std::fmt;

use yaslaurel::layout::image::{HEADER, LEADING, LIMIT, NO_OWNER, SECTIONS};
use yaslaurel::{check, Refusal};

/// What an image of that edition begins with.
const OLD_LEADING: u16 = 4;
/// The bytes of its rule records: first mixture and count.
const OLD_RULE: usize = 4;
/// The place of the rules among the sections.
const RULES_PLACE: usize = 2;

/// Why an image cannot be brought over.
#[derive(Clone, Debug, PartialEq, Eq)]
#[non_exhaustive]
pub enum UpgradeError {
    /// It does not begin with the number of the edition before.
    NotOld,
    /// Its header, or a section, is not as that edition has it; what it would become is refused by this number.
    Refused(Refusal),
}

impl fmt::Display for UpgradeError {
    fn fmt(&self, f: &mut fmt::Formatter<'_>) -> fmt::Result {
        match self {
            UpgradeError::NotOld => {
                write!(f, "no image of the edition before owners, which begins with {OLD_LEADING} (this one's with {LEADING})")
            }
            UpgradeError::Refused(refusal) => write!(f, "as an image of this edition: {refusal}"),
        }
    }
}

impl std::error::Error for UpgradeError {}

fn number(bytes: &[u8], at: usize) -> usize {
    usize::from(u16::from_le_bytes([bytes[at], bytes[at + 1]]))
}

/// The sections of an image of that edition, in their order.
fn sections(old: &[u8]) -> Result<Vec<&[u8]>, UpgradeError> {
    let mut end = HEADER;
    let mut found = Vec::new();
    for section in SECTIONS {
        let (offset, length) = (number(old, section.offset_at()), number(old, section.length_at()));
        if offset < end || offset + length > old.len() {
            return Err(UpgradeError::Refused(Refusal::Sections));
        }
        end = offset + length;
        found.push(&old[offset..end]);
    }
    Ok(found)
}

/// The image of this edition that means the same, its sections without gaps and its rules without owners.
///
/// ```
/// use policy_text::upgraded;
/// use yaslaurel::matrix_policy;
/// // A file that may hold its own atom alone, a process, a user, a rule of one mixture.
/// let old = [
///     &[4, 0, 18, 0, 12, 0, 30, 0, 2, 0, 32, 0, 4, 0, 36, 0, 8, 0][..],
///     &[1, 0, 0, 0, 255, 255, 3, 255, 255, 255, 255, 255, 255, 255, 0, 0, 1, 0, 1, 0, 0, 0, 0, 0, 0, 0],
/// ];
/// assert_eq!(upgraded(&old.concat()).unwrap(), matrix_policy(&[0], &[0], 1).unwrap());
/// ```
///
/// # Errors
///
/// [`UpgradeError`]: what is no image of that edition.
pub fn upgraded(old: &[u8]) -> Result<Vec<u8>, UpgradeError> {
    if old.len() < HEADER || old.len() > LIMIT {
        return Err(UpgradeError::Refused(Refusal::ImageLength));
    }
    if number(old, 0) != usize::from(OLD_LEADING) {
        return Err(UpgradeError::NotOld);
    }
    let mut parts: Vec<Vec<u8>> = sections(old)?.into_iter().map(<[u8]>::to_vec).collect();
    if parts[RULES_PLACE].len() % OLD_RULE != 0 {
        return Err(UpgradeError::Refused(Refusal::RecordCount));
    }
    let owned = parts[RULES_PLACE].chunks(OLD_RULE).map(|record| [record, &NO_OWNER.to_le_bytes()].concat());
    parts[RULES_PLACE] = owned.collect::<Vec<_>>().concat();
    let mut image = LEADING.to_le_bytes().to_vec();
    let mut offset = HEADER;
    for part in &parts {
        image.extend([offset as u16, part.len() as u16].map(u16::to_le_bytes).concat());
        offset += part.len();
    }
    image.extend(parts.concat());
    check(&image).map_err(UpgradeError::Refused)?;
    Ok(image)
}

//! What a file is that is no policy image.

use crate::profiles::is_heading;
use crate::statement::statement;

/// What a file is, if it is a text that the program `policy` turns into an image: a story or a text of profiles, by its first line that says
/// something.
///
/// ```
/// use policy_text::text_form;
/// assert_eq!(text_form(b"# A night.\n\nsource north\n"), Some("this is a story: policy make turns it into an image"));
/// let profiles = "this is a text of profiles: policy profiles turns it into an image";
/// assert_eq!(text_form(b"profile /bin/a {\n}\n"), Some(profiles));
/// assert_eq!(text_form(b"sources of the Nile\n"), None);
/// ```
#[must_use]
pub fn text_form(bytes: &[u8]) -> Option<&'static str> {
    let text = std::str::from_utf8(bytes).ok()?;
    if is_heading(text.as_bytes()) {
        return Some("this is a text of profiles: policy profiles turns it into an image");
    }
    let first = text.split('\n').map(statement).find(|found| !matches!(found, Ok(None)));
    matches!(first, Some(Ok(_))).then_some("this is a story: policy make turns it into an image")
}

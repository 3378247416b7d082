//! Paths as text: no file system is asked.

/// An absolute path without `.`, `..` and repeated slashes; nothing for a relative name without a folder.
pub fn absolute(folder: Option<&[u8]>, name: &[u8]) -> Option<Vec<u8>> {
    let mut parts: Vec<&[u8]> = Vec::new();
    let folder = if name.starts_with(b"/") { &b""[..] } else { folder? };
    for part in folder.split(|byte| *byte == b'/').chain(name.split(|byte| *byte == b'/')) {
        match part {
            b"" | b"." => {}
            b".." => {
                parts.pop();
            }
            part => parts.push(part),
        }
    }
    let mut path = vec![b'/'];
    path.extend(parts.join(&b'/'));
    Some(path)
}

/// The folder of an absolute path, and the name in it.
pub fn split(path: &[u8]) -> (&[u8], &[u8]) {
    match path.iter().rposition(|byte| *byte == b'/') {
        Some(0) => (b"/", &path[1..]),
        Some(place) => (&path[..place], &path[place + 1..]),
        None => (b"", path),
    }
}

/// What stands behind a folder in a path below it.
pub fn below<'a>(path: &'a [u8], folder: &[u8]) -> Option<&'a [u8]> {
    path.strip_prefix(folder)?.strip_prefix(b"/")
}

/// A path for people: on one line.
pub fn shown(path: &[u8]) -> String {
    String::from_utf8_lossy(path).chars().map(|letter| if letter.is_control() { '?' } else { letter }).collect()
}

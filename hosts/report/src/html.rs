//! The file of HTML: the page's own parts, with the data inside.

use base64::encode;
use serde::Serialize;
use sha2::{Digest, Sha256};

const PAGE: &str = include_str!("../page/report.html");
const STYLE: &str = include_str!("../page/report.css");
const SCRIPT: &str = include_str!("../page/report.js");

/// What a browser may load and run: this style and this script by their digests, and nothing from anywhere else.
fn security_policy() -> String {
    let [style, script] = [STYLE, SCRIPT].map(|text| encode(Sha256::digest(text)));
    format!(
        "default-src 'none'; style-src 'sha256-{style}'; script-src 'sha256-{script}'; base-uri 'none'; form-action 'none'"
    )
}

/// Data as JSON in which nothing can end the element that it stands in, or begin another.
fn inert_json(data: &impl Serialize) -> String {
    let text = serde_json::to_string(data).expect("the data has no key that is no text");
    text.replace('<', "\\u003c").replace('>', "\\u003e").replace('&', "\\u0026")
}

/// The page with its data. The marks stand once each in the page, and the data comes last, so that no name is taken for a mark.
pub fn assemble(data: &impl Serialize) -> String {
    let page = PAGE.replacen("@SECURITY@", &security_policy(), 1);
    let page = page.replacen("@STYLE@", STYLE, 1).replacen("@SCRIPT@", SCRIPT, 1);
    page.replacen("@DATA@", &inert_json(data), 1)
}

#[cfg(test)]
mod tests {
    use super::*;

    #[test]
    fn names_stay_inside_the_data() {
        let text = inert_json(&["</script><img src=x onerror=alert(1)>", "<!--", "@DATA@ & \"quoted\""]);
        assert!(!text.contains(['<', '>', '&']), "{text}");
        let back: Vec<String> = serde_json::from_str(&text).unwrap();
        assert_eq!(back[0], "</script><img src=x onerror=alert(1)>");
        assert_eq!(back[2], "@DATA@ & \"quoted\"");
    }

    #[test]
    fn each_mark_stands_once() {
        for mark in ["@SECURITY@", "@STYLE@", "@SCRIPT@", "@DATA@"] {
            let count = [PAGE, STYLE, SCRIPT].map(|text| text.matches(mark).count());
            assert_eq!(count, [1, 0, 0], "{mark}");
        }
    }
}

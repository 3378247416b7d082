//! Two accepted images: their normal images are equal exactly when their sessions are, and the owners at every use of a rule.

use judge::{image, normal};
use yaslaurel::layout::image::{NO_OWNER, UNRESTRICTED};
use yaslaurel::Session;

use crate::bench::Bench;
use crate::case::{boxed, differ, hex, Case, Difference, Part};
use crate::counters::{Counters, Need};
use crate::generate;
use crate::random::Random;
use crate::shrink;

pub const PART: Part = Part {
    name: "pairs: equal normal images exactly with equal sessions and owners",
    cases: 40_000,
    make: |r| Box::new(make(r)),
    needs: &[Need::Words(SESSIONS, &["equal", "different", "equal, with other owners"])],
};

const SESSIONS: &str = "pairs, by their sessions";

struct Pair {
    one: Vec<u8>,
    other: Vec<u8>,
}

fn make(r: &mut Random) -> Pair {
    let class = r.pick(&[0, 0, 1, 1, 2]);
    let one = generate::policy(r, class);
    let mut other = generate::respelled(r, &one);
    // A small change of meaning, or none.
    match r.below(6) {
        4 | 5 if !other.rules.is_empty() => {
            let at = r.below(other.rules.len());
            other.rules[at].2 = if other.users.is_empty() { NO_OWNER } else { r.below(other.users.len()) as u16 };
        }
        0 if !other.mixtures.is_empty() => {
            let at = r.below(other.mixtures.len());
            other.mixtures[at] ^= 1 << r.below(64);
        }
        1 if !other.users.is_empty() => {
            let at = r.below(other.users.len());
            other.users[at] = UNRESTRICTED;
        }
        2 if !other.containers.is_empty() => {
            let at = r.below(other.containers.len());
            other.containers[at] = (1, 3, UNRESTRICTED, UNRESTRICTED);
        }
        _ => {}
    }
    Pair { one: one.encode(1), other: other.encode(2) }
}

impl Case for Pair {
    fn run(&self, _: &mut Bench, c: &mut Counters) -> Difference {
        let mut images = Vec::new();
        let mut sessions = Vec::new();
        for image in [&self.one, &self.other] {
            // By the safe interface, so that it is compared too.
            match (yaslaurel::normalise(image), Session::start(image)) {
                (Ok(normal), Ok(session)) => {
                    images.push(normal);
                    sessions.push(session);
                }
                (Err(a), Err(b)) if image::check(image) == a.number() && a == b => return None,
                _ => return Some("normaliser and start of the Rust interface do not agree".into()),
            }
        }
        let (normals, starts) = (images[0] == images[1], sessions[0] == sessions[1]);
        let [one, other] = [&self.one, &self.other].map(|image| image::read(image).expect("the image is accepted"));
        let owners = one.owners_at_uses() == other.owners_at_uses();
        let word = match (starts, owners) {
            (true, true) => "equal",
            (true, false) => "equal, with other owners",
            (false, _) => "different",
        };
        c.count(SESSIONS, word);
        let same = starts && owners;
        differ("equal normal images", normals, normal::encode(&one) == normal::encode(&other)).or_else(|| {
            (normals != same).then(|| format!("equal normal images {normals}, equal sessions and owners {same}"))
        })
    }

    fn simpler(&self) -> Vec<Box<dyn Case>> {
        let ones = shrink::images(&self.one).into_iter().map(|one| Pair { one, other: self.other.clone() });
        let others = shrink::images(&self.other).into_iter().map(|other| Pair { one: self.one.clone(), other });
        boxed(ones.chain(others))
    }

    fn show(&self) -> String {
        format!("one image: {}\nother image: {}\n", hex(&self.one), hex(&self.other))
    }
}

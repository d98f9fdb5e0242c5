//! What was meant by a word that is none.

use crate::help::Topic;

/// The subcommand that was meant by a name: one letter is wrong, missing, too many or changed places with the next,
/// or the name is a part of it.
pub(super) fn meant(name: &str) -> Option<Topic> {
    let lower = name.to_lowercase();
    let near = |topic: &Topic| is_near(lower.as_bytes(), topic.name().as_bytes());
    let part = |topic: &Topic| lower.len() > 2 && topic.name().contains(&lower);
    let mut topics = Topic::ALL.into_iter();
    topics.clone().find(near).or_else(|| topics.find(part))
}

/// Whether two words differ in one place at most.
fn is_near(a: &[u8], b: &[u8]) -> bool {
    let same = a.iter().zip(b).take_while(|(a, b)| a == b).count();
    let (a, b) = (&a[same..], &b[same..]);
    match (a, b) {
        ([], []) => true,
        ([], _) => b.len() == 1,
        (_, []) => a.len() == 1,
        ([a0, a1, a2 @ ..], [b0, b1, b2 @ ..]) if (a0, a1) == (b1, b0) && a2 == b2 => true,
        _ => a[1..] == b[1..] || &a[1..] == b || a == &b[1..],
    }
}

#[cfg(test)]
mod tests {
    use super::*;

    #[test]
    fn words_that_were_meant() {
        for (name, topic) in [
            ("bustrace", Topic::BusTrace),
            ("bus_trace", Topic::BusTrace),
            ("trace", Topic::BusTrace),
            ("wirte", Topic::Write),
            ("writ", Topic::Write),
            ("Wipe", Topic::Wipe),
            ("comit", Topic::Commit),
            ("commits", Topic::Commit),
            ("cutoff", Topic::CutOff),
            ("cut", Topic::CutOff),
            ("lst", Topic::List),
            ("hand", Topic::Handover),
        ] {
            assert_eq!(meant(name), Some(topic), "{name}");
        }
        for name in ["", "x", "forget", "rd", "delete", "0", "\u{e4}"] {
            assert_eq!(meant(name), None, "{name}");
        }
    }
}

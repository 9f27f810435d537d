//! The stored answers: transcripts in the repository, made by the reference, replayed where the crate's sources are not
//! there.

use crate::party::Party;
use crate::text::{print, read};

/// The stored transcripts, each with its name.
pub const STORED: &[(&str, &str)] = &[
    ("single_key", include_str!("../stored/single_key.txt")),
    ("several_keys", include_str!("../stored/several_keys.txt")),
    (
        "opt_in_transaction",
        include_str!("../stored/opt_in_transaction.txt"),
    ),
    ("recency", include_str!("../stored/recency.txt")),
    ("epochs", include_str!("../stored/epochs.txt")),
    ("pushes", include_str!("../stored/pushes.txt")),
    ("space", include_str!("../stored/space.txt")),
    (
        "refused_replies",
        include_str!("../stored/refused_replies.txt"),
    ),
    ("old_nulls", include_str!("../stored/old_nulls.txt")),
];

/// What a party answers to a transcript's calls: the transcript again, with its comments, as this party would have it.
pub fn replay(text: &str, party: &mut dyn Party) -> Result<String, String> {
    let sequence = read::sequence(text)?;
    let comments = text.lines().filter(|line| line.starts_with('#'));
    let mut out: String = comments.map(|line| format!("{line}\n")).collect();
    out += &print::setup(&sequence.setup);
    out += &print::state(&party.state());
    for (at, call) in &sequence.calls {
        let answer = party
            .call(*at, call)
            .ok_or("a call that the party cannot be given")?;
        out += &print::call(*at, call);
        out += &print::answer(&answer);
        out += &print::state(&party.state());
    }
    Ok(out)
}

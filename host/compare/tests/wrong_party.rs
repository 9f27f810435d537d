//! The frame notices parties that are wrong in one thing, and shows few calls that tell.

use calls::{Answer, At, Call, Command, Outcome, Setup, State, record};
use compare::coverage::{self, Coverage};
use compare::generate::{Limits, Sequence};
use compare::one_nil;
use compare::party::Party;
use compare::text::read;
use model::Model;

/// A model with a fault.
struct Wrong {
    model: Model,
    fault: Fault,
}

#[derive(Clone, Copy, PartialEq)]
enum Fault {
    DropsAtExpiry,
    CountsNoMiss,
    OldestFirst,
    OneByteLess,
    NeverRefuses,
    Panics,
    SkipsOneMore,
    ServesTheFirstKeyTwice,
    ServesNoKeys,
    WatchesTheFirstSet,
    RefusedStoresUntold,
    KeepsWhatIsPushed,
    OffsetOneOn,
    OldNullIsEmptyArray,
    OldNullIsEmptyBlob,
    OldNullIsNotHeard,
    SpellsNullsAnew,
}

impl Party for Wrong {
    fn name(&self) -> &'static str {
        "wrong"
    }

    fn call(&mut self, mut at: At, call: &Call) -> Option<Answer> {
        if self.fault == Fault::DropsAtExpiry && matches!(call, Call::Lookup { .. }) {
            at.clock = at.clock.saturating_add(1);
        }
        if self.fault == Fault::Panics && matches!(call, Call::Invalidate { .. }) {
            panic!("planted");
        }
        let mut call = call.clone();
        if let (Fault::NeverRefuses, Call::Resolve { room, .. }) = (self.fault, &mut call) {
            *room = usize::MAX;
        }
        if let (Fault::KeepsWhatIsPushed, Call::Push { bytes }) = (self.fault, &mut call)
            && calls::resp::parse(bytes).is_some()
        {
            *bytes = b">0\r\n".to_vec();
        }
        match (self.fault, &mut call) {
            (Fault::OldNullIsEmptyArray, Call::Resolve { replies, .. }) => {
                *replies = instead(replies, "*-1\r\n", "*0\r\n");
            }
            (Fault::OldNullIsEmptyBlob, Call::Push { bytes }) => {
                *bytes = instead(bytes, "$-1\r\n", "$0\r\n\r\n");
            }
            (Fault::OldNullIsNotHeard, Call::Push { bytes }) => {
                *bytes = instead(bytes, "invalidate\r\n$-1\r\n", "invalidate\r\n+\r\n");
            }
            _ => {}
        }
        let mut answer = self.model.call(at, &call);
        match (self.fault, &mut answer) {
            (Fault::OneByteLess, Answer::Hit(value)) => drop(value.pop()),
            (Fault::SkipsOneMore, Answer::Planned { responses, .. }) => responses.0 += 1,
            (Fault::ServesTheFirstKeyTwice, Answer::Planned { outcomes, .. }) => {
                for outcome in outcomes {
                    if let Outcome::CachedAll(values) = outcome
                        && let Some(first) = values.first().cloned()
                    {
                        values.fill(first);
                    }
                }
            }
            (Fault::ServesNoKeys, Answer::Planned { outcomes, .. }) => {
                for (command, outcome) in planned(&call).iter().zip(outcomes) {
                    if coverage::without_keys(command) {
                        *outcome = Outcome::CachedAll(vec![]);
                    }
                }
            }
            (Fault::WatchesTheFirstSet, Answer::Planned { outcomes, .. }) => {
                for (command, outcome) in planned(&call).iter().zip(outcomes) {
                    if coverage::several_sets(command) {
                        *outcome = Outcome::Cached(b"*0\r\n".to_vec());
                    }
                }
            }
            (Fault::SpellsNullsAnew, _) => answer = one_nil::answer(answer),
            (Fault::RefusedStoresUntold, Answer::Resolved { refused, .. }) => *refused = 0,
            (Fault::OffsetOneOn, Answer::Refused(refusal)) => {
                refusal.offset = refusal.offset.map(|offset| offset + 1);
            }
            _ => {}
        }
        Some(answer)
    }

    fn state(&self) -> State {
        let mut state = self.model.state().clone();
        match self.fault {
            Fault::CountsNoMiss => state.counts.miss = 0,
            Fault::OldestFirst => state.shards.iter_mut().for_each(|row| row.reverse()),
            _ => {}
        }
        state
    }
}

/// The bytes with one text in the place of another.
fn instead(bytes: &[u8], this: &str, that: &str) -> Vec<u8> {
    let text = String::from_utf8_lossy(bytes);
    text.replace(this, that).into_bytes()
}

/// The commands of a planning that was not refused.
fn planned(call: &Call) -> Vec<Command> {
    let Call::Plan { record, .. } = call else {
        unreachable!("planned by a planning")
    };
    record::parse(record).expect("a record").commands
}

fn wrong(setup: &Setup, fault: Fault) -> Vec<Box<dyn Party>> {
    let model = Model::setup(setup).expect("a setup that is not refused");
    vec![Box::new(Wrong { model, fault })]
}

/// The fewest calls that a failure is brought down to, of the first five sequences that show one: which calls they have is chance.
fn failure(followers: fn(&Setup) -> Vec<Box<dyn Party>>) -> usize {
    let failures = (1..=100).filter_map(|seed| failure_of(seed, followers));
    let fewest = failures.take(5).min();
    fewest.expect("a sequence that shows the fault")
}

/// The number of calls that the failure of a sequence is brought down to, if it shows one.
fn failure_of(seed: u64, followers: fn(&Setup) -> Vec<Box<dyn Party>>) -> Option<usize> {
    let mut sequence = Sequence::begin(seed, Limits::ALL, followers);
    for _ in 0..60 {
        let (at, call) = sequence.next_call();
        if let Err(text) = sequence.make(at, call, &mut Coverage::default()) {
            assert!(text.starts_with(&format!("seed {seed}\n")));
            let (_, fewer) = text.split_once("fewer calls:\n").expect("fewer calls");
            let sequence = read::sequence(fewer).expect("a transcript");
            return Some(sequence.calls.len());
        }
    }
    None
}

#[test]
fn a_wrong_party_is_noticed_with_few_calls() {
    let calls = [
        failure(|setup| wrong(setup, Fault::DropsAtExpiry)),
        failure(|setup| wrong(setup, Fault::CountsNoMiss)),
        failure(|setup| wrong(setup, Fault::OldestFirst)),
        failure(|setup| wrong(setup, Fault::OneByteLess)),
        failure(|setup| wrong(setup, Fault::NeverRefuses)),
        failure(|setup| wrong(setup, Fault::Panics)),
        failure(|setup| wrong(setup, Fault::SkipsOneMore)),
        failure(|setup| wrong(setup, Fault::ServesTheFirstKeyTwice)),
        failure(|setup| wrong(setup, Fault::ServesNoKeys)),
        failure(|setup| wrong(setup, Fault::WatchesTheFirstSet)),
        failure(|setup| wrong(setup, Fault::RefusedStoresUntold)),
        failure(|setup| wrong(setup, Fault::KeepsWhatIsPushed)),
        failure(|setup| wrong(setup, Fault::OffsetOneOn)),
        failure(|setup| wrong(setup, Fault::OldNullIsEmptyArray)),
        failure(|setup| wrong(setup, Fault::OldNullIsEmptyBlob)),
        failure(|setup| wrong(setup, Fault::OldNullIsNotHeard)),
        failure(|setup| wrong(setup, Fault::SpellsNullsAnew)),
    ];
    assert!(calls.iter().all(|&count| count <= 4), "{calls:?}");
    assert_eq!((calls[1], calls[5]), (1, 1));
}

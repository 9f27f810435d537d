//! One sequence of calls, made to the model and to the parties that follow it.

use crate::coverage::Coverage;
use crate::party::Party;
use crate::text::print;
use calls::{Answer, At, Call, Setup, State};
use model::Model;
use std::panic::{AssertUnwindSafe, catch_unwind};

/// A sequence under way: the leader, the parties that follow it, and the calls made so far.
pub struct Run {
    /// The model.
    pub leader: Model,
    followers: Vec<Box<dyn Party>>,
    setup: Setup,
    made: Vec<(At, Call)>,
}

impl Run {
    /// Begins a sequence with a setup that is not refused.
    pub fn begin(setup: &Setup, followers: Vec<Box<dyn Party>>) -> Self {
        let leader = Model::setup(setup).expect("a setup that is not refused");
        Run {
            leader,
            followers,
            setup: setup.clone(),
            made: Vec::new(),
        }
    }

    /// Makes a call to all; the error says who differs, and shows the calls up to this one, which is the
    /// shortest prefix that differs.
    pub fn call(&mut self, at: At, call: Call, coverage: &mut Coverage) -> Result<Answer, String> {
        let before = self.leader.state().clone();
        let answer = self.leader.call(at, &call);
        let after = self.leader.state();
        coverage.count(&call, &answer, &before, after);
        let differences = self.followers.iter_mut();
        let differences: String = differences
            .filter_map(|party| difference(&mut **party, at, &call, &answer, after))
            .collect();
        self.made.push((at, call));
        if differences.is_empty() {
            return Ok(answer);
        }
        let model = shown("model", &print::answer(&answer), after);
        Err(self.transcript() + &model + &differences)
    }

    /// The calls so far.
    pub fn made(&self) -> &[(At, Call)] {
        &self.made
    }

    /// The setup and the calls so far, as text.
    pub fn transcript(&self) -> String {
        let calls: String = self
            .made
            .iter()
            .map(|(at, call)| print::call(*at, call))
            .collect();
        print::setup(&self.setup) + &calls
    }
}

fn shown(name: &str, answer: &str, state: &State) -> String {
    format!("{name}:\n{answer}{}", print::state(state))
}

/// What a party says to a call, if it is not what the leader says. Where it cannot be given the call, the leader must refuse
/// it as bytes that are no call (1, 2, 3, 6).
fn difference(
    party: &mut dyn Party,
    at: At,
    call: &Call,
    answer: &Answer,
    state: &State,
) -> Option<String> {
    let Ok((theirs, their_state)) =
        catch_unwind(AssertUnwindSafe(|| (party.call(at, call), party.state())))
    else {
        return Some(format!("{}:\n< panicked\n", party.name()));
    };
    let agrees = match (&theirs, answer) {
        (Some(theirs), _) => theirs == answer,
        (None, Answer::Refused(refusal)) => [1, 2, 3, 6].contains(&refusal.cause),
        (None, _) => false,
    };
    if agrees && their_state == *state {
        return None;
    }
    let theirs = theirs.map_or("< cannot be given this call\n".into(), |a| {
        print::answer(&a)
    });
    Some(shown(party.name(), &theirs, &their_state))
}

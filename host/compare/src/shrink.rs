//! Fewer calls that still show a difference: calls are left out, one by one, as long as somebody differs.

use crate::coverage::Coverage;
use crate::party::Party;
use crate::sequence::Run;
use calls::{Answer, At, Call, Setup};

/// Sets up the parties that follow the model.
pub type Followers = fn(&Setup) -> Vec<Box<dyn Party>>;

/// A call with its place in the first sequence; a resolving names the place of its planning.
#[derive(Clone)]
struct Step {
    at: At,
    call: Call,
    place: usize,
    planned_at: Option<usize>,
}

/// The transcript, with what each party says, of a shortened sequence that differs; `None` where this one does not.
pub fn shrink(setup: &Setup, calls: &[(At, Call)], followers: Followers) -> Option<String> {
    let mut steps = steps(setup, calls);
    let mut shown = differs(setup, &mut steps, followers)?;
    let mut length = steps.len() + 1;
    while steps.len() < length {
        length = steps.len();
        for left_out in (0..length).rev() {
            let mut fewer = steps.clone();
            if left_out < fewer.len() {
                fewer.remove(left_out);
            }
            if let Some(text) = differs(setup, &mut fewer, followers) {
                (steps, shown) = (fewer, text);
            }
        }
    }
    Some(shown)
}

/// The calls, each resolving with the place of its planning.
fn steps(setup: &Setup, calls: &[(At, Call)]) -> Vec<Step> {
    let mut run = Run::begin(setup, Vec::new());
    let mut plans = Vec::new();
    let mut steps = Vec::new();
    for (place, (at, call)) in calls.iter().enumerate() {
        let planned_at = match call {
            Call::Resolve { plan, .. } => Some(plans[*plan]),
            _ => None,
        };
        let answer = run.call(*at, call.clone(), &mut Coverage::default());
        if matches!(answer, Ok(Answer::Planned { .. })) {
            plans.push(place);
        }
        steps.push(Step {
            at: *at,
            call: call.clone(),
            place,
            planned_at,
        });
    }
    steps
}

/// What differs, if anything; the steps after it are left out, and so are resolvings whose planning is gone or refused.
fn differs(setup: &Setup, steps: &mut Vec<Step>, followers: Followers) -> Option<String> {
    let mut run = Run::begin(setup, followers(setup));
    let mut plans = Vec::new();
    let mut made = Vec::new();
    for mut step in std::mem::take(steps) {
        if let (Call::Resolve { plan, .. }, Some(planned_at)) = (&mut step.call, step.planned_at) {
            match plans.iter().position(|&place| place == planned_at) {
                Some(number) => *plan = number,
                None => continue,
            }
        }
        let answer = run.call(step.at, step.call.clone(), &mut Coverage::default());
        if matches!(answer, Ok(Answer::Planned { .. })) {
            plans.push(step.place);
        }
        made.push(step);
        if let Err(text) = answer {
            *steps = made;
            return Some(text);
        }
    }
    None
}

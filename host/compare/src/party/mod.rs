//! The parties of the comparison.

#[cfg(feature = "library")]
mod library;
#[cfg(feature = "reference")]
mod reference;

#[cfg(feature = "library")]
pub use library::Library;

use calls::{Answer, At, Call, Setup, State};
use model::Model;

/// One who answers calls.
pub trait Party {
    /// Its name in a failure.
    fn name(&self) -> &'static str;

    /// Answers a call. `None` where the party cannot be given this call: it is then no call to it, and the leader must
    /// refuse it.
    fn call(&mut self, at: At, call: &Call) -> Option<Answer>;

    /// The state after the calls so far.
    fn state(&self) -> State;
}

impl Party for Model {
    fn name(&self) -> &'static str {
        "model"
    }

    fn call(&mut self, at: At, call: &Call) -> Option<Answer> {
        Some(Model::call(self, at, call))
    }

    fn state(&self) -> State {
        Model::state(self).clone()
    }
}

/// The parties that follow the model, as far as they are there, freshly set up.
#[cfg_attr(not(feature = "reference"), expect(unused_mut))]
pub fn followers(setup: &Setup) -> Vec<Box<dyn Party>> {
    let mut parties = followers_of_all(setup);
    #[cfg(feature = "reference")]
    parties.push(Box::new(::reference::Reference::setup(setup, true)));
    parties
}

/// Those of them that can be given every call: the crate panics on a cursor as key.
#[cfg_attr(not(feature = "library"), expect(unused_variables))]
pub fn followers_of_all(setup: &Setup) -> Vec<Box<dyn Party>> {
    vec![
        #[cfg(feature = "library")]
        Box::new(Library::setup(setup).expect("a setup that is not refused")),
    ]
}

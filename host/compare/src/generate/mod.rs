//! Random sequences with small alphabets, so that hits, evictions, epochs, expiries and updates are common.

mod generator;
mod records;
mod replies;
mod setups;
pub mod values;

use crate::coverage::Coverage;
use crate::party::{followers, followers_of_all};
use crate::rng::Rng;
use crate::sequence::Run;
use crate::shrink::{Followers, shrink};
use calls::{Answer, At, Call, Setup};
use generator::Generator;
use model::Model;
pub use replies::Sent;

/// What the parties can be given.
#[derive(Clone, Copy)]
pub struct Limits {
    /// Commands with a cursor as key, on which the crate panics.
    pub cursor_as_key: bool,
    /// Single calls alone, also past their limits.
    pub single: bool,
    /// Arenas in which no store lacks space.
    pub ample: bool,
}

impl Limits {
    /// Every call.
    pub const ALL: Limits = Limits {
        cursor_as_key: true,
        single: false,
        ample: false,
    };

    /// Every call that the crate can be given.
    pub const CRATE: Limits = Limits {
        cursor_as_key: false,
        single: false,
        ample: false,
    };

    /// The same where no store lacks space.
    pub const AMPLE: Limits = Limits {
        ample: true,
        ..Limits::CRATE
    };

    /// Single calls.
    pub const SINGLE: Limits = Limits {
        single: true,
        ..Limits::CRATE
    };

    /// The parties that can be given these calls.
    fn followers(self) -> Followers {
        match self.cursor_as_key {
            true => followers_of_all,
            false => followers,
        }
    }
}

/// Runs the sequence of a seed with every party that there is; the error shows its shortest prefix that differs.
pub fn sequence(
    seed: u64,
    calls: usize,
    limits: Limits,
    coverage: &mut Coverage,
) -> Result<(), String> {
    let mut sequence = Sequence::begin(seed, limits, limits.followers());
    for _ in 0..calls {
        let (at, call) = sequence.next_call();
        sequence.make(at, call, coverage)?;
    }
    Ok(())
}

/// A random sequence under way.
pub struct Sequence {
    seed: u64,
    followers: Followers,
    run: Run,
    generator: Generator,
}

impl Sequence {
    /// The sequence of a seed, with the parties that follow the model.
    pub fn begin(seed: u64, limits: Limits, followers: Followers) -> Self {
        let mut rng = Rng::new(seed);
        let mut setup = setups::setup(&mut rng);
        if limits.ample {
            setups::widen(&mut setup);
        }
        let run = Run::begin(&setup, followers(&setup));
        let generator = Generator::new(rng, setup, limits);
        Sequence {
            seed,
            followers,
            run,
            generator,
        }
    }

    /// The next call.
    pub fn next_call(&mut self) -> (At, Call) {
        self.generator.next_call(&self.run)
    }

    /// Makes it. The error shows the seed, the shortest prefix that differs, and fewer calls that do.
    pub fn make(&mut self, at: At, call: Call, coverage: &mut Coverage) -> Result<Answer, String> {
        let answer = self.run.call(at, call, coverage).map_err(|text| {
            let fewer = shrink(self.setup(), self.run.made(), self.followers);
            let fewer = fewer.expect("the same calls differ again");
            format!("seed {}\n{text}\nfewer calls:\n{fewer}", self.seed)
        })?;
        self.generator.learn(&answer);
        Ok(answer)
    }

    /// The setup.
    pub fn setup(&self) -> &Setup {
        &self.generator.setup
    }

    /// The model, as the calls so far left it.
    pub fn leader(&self) -> &Model {
        &self.run.leader
    }
}

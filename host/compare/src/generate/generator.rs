//! The next call of a random sequence.

use super::replies::Sent;
use super::{Limits, setups};
use crate::rng::Rng;
use crate::sequence::Run;
use calls::{Answer, At, Call, Setup, Value, resp};
use model::layout;

/// The length of a buffer that is not short, but for the longest plans.
const AMPLE: usize = 1 << 14;

/// What the next call is drawn from.
pub struct Generator {
    pub(super) rng: Rng,
    pub(super) setup: Setup,
    pub(super) limits: Limits,
    keys: Vec<Vec<u8>>,
    /// A sequence in which little expires, for hits and full shards.
    calm: bool,
    clock: u64,
    epoch: u64,
    /// What each plan sent.
    plans: Vec<Sent>,
}

impl Generator {
    pub(super) fn new(mut rng: Rng, setup: Setup, limits: Limits) -> Self {
        let keys = setups::keys(&mut rng, setup.size);
        let clock = if rng.chance(5) {
            u64::MAX - 40
        } else {
            rng.below(20) as u64
        };
        let calm = rng.chance(50);
        Generator {
            rng,
            setup,
            limits,
            keys,
            calm,
            clock,
            epoch: 0,
            plans: Vec::new(),
        }
    }

    pub(super) fn next_call(&mut self, run: &Run) -> (At, Call) {
        self.tick();
        let at = self.at();
        if self.limits.single {
            return (at, self.single());
        }
        let call = match self.rng.below(100) {
            0..32 => self.plan(at, run),
            32..60 if !self.plans.is_empty() => self.resolve(at, run),
            60..68 => Call::Push { bytes: self.push() },
            68..82 => self.lookup(),
            82..92 => self.store(),
            92..97 => Call::Invalidate { key: self.key() },
            97..100 => Call::NewEpoch,
            _ => self.plan(at, run),
        };
        (at, call)
    }

    pub(super) fn learn(&mut self, answer: &Answer) {
        match answer {
            Answer::Epoch(epoch) if self.rng.chance(70) => self.epoch = *epoch,
            Answer::Planned {
                sent, responses, ..
            } => self.plans.push(Sent::read(sent, *responses)),
            _ => {}
        }
    }

    /// A single call. There are no new epochs among them: the epoch goes on by itself.
    fn single(&mut self) -> Call {
        if self.rng.chance(2) {
            self.epoch = self.epoch.wrapping_add(1);
        }
        let mut call = match self.rng.below(100) {
            0..45 => self.lookup(),
            45..90 => self.store(),
            _ => Call::Invalidate { key: self.key() },
        };
        if self.rng.chance(1) {
            let (Call::Lookup { key, .. } | Call::Store { key, .. } | Call::Invalidate { key }) =
                &mut call
            else {
                unreachable!("a single call");
            };
            *key = vec![b'k'; 65_535 + self.rng.below(2)];
        }
        call
    }

    /// The clock stands, goes on, leaps or goes back.
    fn tick(&mut self) {
        if self.calm && self.rng.chance(90) {
            return;
        }
        let forward = match self.rng.below(100) {
            0..60 => 0,
            60..92 => self.rng.of(&[1, 1, 1, 2, 3, 5]),
            92..95 => self.rng.of(&[20, 100, 2000]),
            _ => {
                self.clock = self.clock.saturating_sub(self.rng.of(&[1, 3, 30]));
                0
            }
        };
        self.clock = self.clock.saturating_add(forward);
    }

    fn at(&mut self) -> At {
        let epoch = match self.rng.below(100) {
            _ if self.calm && self.rng.chance(90) => self.epoch,
            0..88 => self.epoch,
            88..94 => self.epoch.wrapping_sub(1),
            94..98 => self.epoch.wrapping_add(1),
            _ => self.rng.of(&[0, 1, u64::MAX]),
        };
        let mode = match self.rng.below(100) {
            0..90 => self.setup.mode,
            90..99 => 1 - self.setup.mode,
            _ => 2,
        };
        let default_ttl = match self.rng.below(100) {
            _ if self.calm && self.rng.chance(90) => 1000,
            0..80 => self.setup.default_ttl,
            _ => setups::ttl(&mut self.rng),
        };
        At {
            clock: self.clock,
            epoch,
            mode,
            default_ttl,
        }
    }

    pub(super) fn key(&mut self) -> Vec<u8> {
        self.keys[self.rng.below(self.keys.len())].clone()
    }

    /// A command key that planning makes too, or another.
    fn command_key(&mut self, key: &[u8]) -> Vec<u8> {
        match self.rng.below(10) {
            0..7 => [b"GET", key].concat(),
            7..8 => [b"HGET", key, b"f"].concat(),
            _ => self.rng.pick::<[u8]>(&[b"", b"GET", b"x"]).to_vec(),
        }
    }

    fn lookup(&mut self) -> Call {
        let key = self.key();
        let command = self.command_key(&key);
        Call::Lookup { key, command }
    }

    fn plan(&mut self, at: At, run: &Run) -> Call {
        let record = self.record();
        let (mut send_room, mut plan_room) = (AMPLE, AMPLE);
        if self.rng.chance(15) {
            let ample = Call::Plan {
                record: record.clone(),
                send_room,
                plan_room,
            };
            if let Answer::Planned { sent, outcomes, .. } = run.leader.clone().call(at, &ample) {
                let plan = layout::plan::encode(false, &outcomes);
                send_room = sent.len().saturating_sub(self.rng.of(&[0, 0, 1]));
                plan_room = plan.len() - self.rng.of(&[0, 0, 1]);
            }
        }
        Call::Plan {
            record,
            send_room,
            plan_room,
        }
    }

    fn resolve(&mut self, at: At, run: &Run) -> Call {
        let newest = self.plans.len() - 1;
        let plan = if self.rng.chance(80) {
            newest
        } else {
            self.rng.below(newest + 1)
        };
        let sent = self.plans[plan].clone();
        let replies = resp::encode(&self.replies(&sent));
        let replies = self.damaged(replies);
        let mut room = AMPLE;
        if self.rng.chance(10) {
            let ample = Call::Resolve {
                plan,
                replies: replies.clone(),
                room,
            };
            if let Answer::Resolved { result, .. } = run.leader.clone().call(at, &ample) {
                room = result.len().saturating_sub(self.rng.below(3));
            }
        }
        Call::Resolve {
            plan,
            replies,
            room,
        }
    }

    fn store(&mut self) -> Call {
        let value = if self.rng.chance(15) {
            Value::Blob(vec![b'v'; self.rng.below(400)])
        } else {
            self.value(3)
        };
        let value = resp::encode(&value);
        let expiry = match self.rng.below(10) {
            0..8 => self.clock.saturating_add(self.rng.of(&[0, 1, 5, 20, 100])),
            _ => self.rng.of(&[0, u64::MAX]),
        };
        let key = self.key();
        let command = self.command_key(&key);
        Call::Store {
            key,
            command,
            value: self.damaged(value),
            expiry,
        }
    }

    /// The bytes, now and then cut short or with one changed.
    pub(super) fn damaged(&mut self, mut bytes: Vec<u8>) -> Vec<u8> {
        if bytes.is_empty() || !self.rng.chance(3) {
            return bytes;
        }
        let place = self.rng.below(bytes.len());
        if self.rng.chance(50) {
            bytes.truncate(place);
        } else {
            bytes[place] ^= 1 << self.rng.below(8);
        }
        bytes
    }
}

//! The library and the model side by side on lent bytes: a small cache, records with every kind of outcome, and the judgement.

use super::{at, command, plan_record, refused, setup, store};
use calls::{Answer, At, Call, Command, Record, Setup};
use compare::guarded::{Guarded, Side};
use compare::party::{Library, Party};
use model::{Model, layout};

/// A cache in which `a` has a value and `b` another command's.
pub fn cache() -> (Setup, Model) {
    let setup = Setup {
        arena: 600,
        ..setup(3)
    };
    let mut model = Model::setup(&setup).expect("a setup");
    let stores = [
        store("a", "GETa", "$1\r\nx\r\n", 50),
        store("b", "HGETbf", "*1\r\n_\r\n", 50),
    ];
    for call in stores {
        assert_eq!(model.call(at(0), &call), Answer::Done);
    }
    (setup, model)
}

/// The clock of the calls here, under which `a` is served, and the mode that commands are to be asked for in.
pub fn now(mode: u8) -> At {
    At { mode, ..at(3) }
}

/// Makes a call to the library and to the model, on these rows and this plan. Tells the answer, in which they agree.
pub fn judged((setup, model): &(Setup, Model), plan: &[u8], at: At, call: &Call) -> Answer {
    let rows = &model.state().shards;
    let image = layout::arena::encode(rows, setup.arena as usize);
    let mut library = Library::of(setup, Guarded::copy(&image, Side::Behind));
    library.lend_plan(plan);
    let mut model = Model::of(setup, rows.clone());
    let answer = match layout::plan::decode(plan) {
        None => refused(10),
        Some(plan) => {
            model.lend_plan(plan);
            model.call(at, call)
        }
    };
    assert_eq!(library.call(at, call), Some(answer.clone()), "{call:?}");
    assert_eq!(library.state(), *model.state(), "{call:?}");
    answer
}

/// How many were refused for this cause, and how many were not refused.
#[derive(Default)]
pub struct Tally {
    refused: usize,
    taken: usize,
}

impl Tally {
    /// Counts an answer.
    pub fn count(&mut self, cause: u8, answer: &Answer) {
        match answer {
            Answer::Refused(refusal) => self.refused += usize::from(refusal.cause == cause),
            _ => self.taken += 1,
        }
    }

    /// There were more than so many of each.
    #[track_caller]
    pub fn assert(&self, refused: usize, taken: usize) {
        let Tally {
            refused: r,
            taken: t,
        } = self;
        assert!(*r > refused && *t > taken, "{r} refused, {t} taken");
    }
}

/// Records with every kind of outcome, each with replies to what is sent for it in mode All.
pub fn records() -> Vec<(Record, &'static str)> {
    let lines = |transaction, lines: &[&str]| Record {
        transaction,
        commands: lines.iter().map(|line| command(line)).collect(),
    };
    let mut mixed = lines(
        false,
        &[
            "GET a",
            "PING @",
            "MGET a b c",
            "MGET a",
            "JSON.MGET x $",
            "HGET b g",
        ],
    );
    mixed.commands.push(Command {
        ignored: true,
        ..command("GET a")
    });
    let replies = "*9\r\n+PONG\r\n*2\r\n:1\r\n-ERR e\r\n:20\r\n:-1\r\n*1\r\n_\r\n:5\r\n:7\r\n#t\r\n$1\r\nz\r\n";
    vec![
        (mixed, replies),
        (
            lines(true, &["GET b", "GET a"]),
            "*1\r\n*2\r\n:1\r\n%1\r\n+k\r\n,1.5\r\n",
        ),
        (
            lines(false, &["MGET b c", "GET x"]),
            "*5\r\n*2\r\n$-1\r\n*-1\r\n:5\r\n$-1\r\n:-1\r\n*-1\r\n",
        ),
        (lines(false, &[]), "*0\r\n"),
    ]
}

/// The plan that the model writes for a record.
pub fn plan_of(model: &Model, record: &Record) -> Vec<u8> {
    match model.clone().call(now(0), &plan_record(record)) {
        Answer::Planned { outcomes, .. } => layout::plan::encode(record.transaction, &outcomes),
        other => panic!("{other:?}"),
    }
}

/// Resolving of the lent plan with an answer buffer of so many bytes.
pub fn resolving(replies: &[u8], room: usize) -> Call {
    Call::Resolve {
        plan: 0,
        replies: replies.to_vec(),
        room,
    }
}

//! The stored answers: the model gives them, and so do the reference and the library where they are there.

use compare::party::Party;
use compare::stored::{STORED, replay};
use compare::text::read;

fn same(name: &str, text: &str, party: &mut dyn Party) {
    let replayed = replay(text, party).unwrap_or_else(|error| panic!("{name}: {error}"));
    for (line, (given, stored)) in replayed.lines().zip(text.lines()).enumerate() {
        assert_eq!(given, stored, "{name}, {}, line {}", party.name(), line + 1);
    }
    assert_eq!(replayed.lines().count(), text.lines().count(), "{name}");
}

#[test]
fn the_model_gives_the_stored_answers() {
    for (name, text) in STORED {
        let setup = read::sequence(text).expect("a transcript").setup;
        let mut model = model::Model::setup(&setup).expect("a setup that is not refused");
        same(name, text, &mut model);
    }
}

#[cfg(feature = "reference")]
#[test]
fn the_reference_gives_the_stored_answers() {
    for (name, text) in STORED {
        let setup = read::sequence(text).expect("a transcript").setup;
        same(name, text, &mut reference::Reference::setup(&setup, true));
    }
}

#[cfg(feature = "library")]
#[test]
fn the_library_gives_the_stored_answers() {
    for (name, text) in STORED {
        let setup = read::sequence(text).expect("a transcript").setup;
        let library = compare::party::Library::setup(&setup);
        same(
            name,
            text,
            &mut library.expect("a setup that is not refused"),
        );
    }
}

#[test]
fn a_wrong_stored_answer_is_noticed() {
    let (_, text) = STORED[0];
    let wrong = text.replacen("hit 1", "hit 2", 1);
    assert_ne!(wrong, text);
    let setup = read::sequence(text).expect("a transcript").setup;
    let mut model = model::Model::setup(&setup).expect("a setup that is not refused");
    assert_ne!(replay(&wrong, &mut model).expect("a transcript"), wrong);
}

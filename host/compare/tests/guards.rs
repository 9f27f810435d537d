//! The guards guard: a write beside the lent bytes is seen, and the pages around them cannot be touched.

use compare::guarded::{Guarded, Side};
use std::os::unix::process::ExitStatusExt;
use std::process::Command;

const SIDES: [Side; 2] = [Side::Before, Side::Behind];

/// The place beside the lent bytes on the side that has no page next to it, and that on the side that has.
fn beside(guarded: &mut Guarded, side: Side) -> (*mut u8, *mut u8) {
    let lent = guarded.bytes_mut().as_mut_ptr_range();
    let (before, behind) = (lent.start.wrapping_sub(1), lent.end);
    match side {
        Side::Before => (behind, before),
        Side::Behind => (before, behind),
    }
}

#[test]
fn a_write_beside_is_seen() {
    for side in SIDES {
        for length in [0, 1, 24, 4095, 4097, 10_000] {
            let mut guarded = Guarded::zeros(length, side);
            assert_eq!(guarded.bytes(), vec![0; length]);
            assert!(guarded.intact());
            if length > 0 {
                let (marked, _) = beside(&mut guarded, side);
                // SAFETY: a byte of the pages that `guarded` opened, beside the lent ones.
                unsafe { marked.write(0) };
                assert!(!guarded.intact());
            }
        }
    }
}

/// Run again by itself, for it ends the process.
#[test]
fn a_touched_page_ends_the_process() {
    const NAME: &str = "a_touched_page_ends_the_process";
    if let Ok(side) = std::env::var("TOUCH") {
        let side = SIDES[side.parse::<usize>().expect("a number")];
        let mut guarded = Guarded::zeros(100, side);
        let (_, page) = beside(&mut guarded, side);
        // SAFETY: there is none: the page may not be read, and that is what is shown.
        std::hint::black_box(unsafe { page.read() });
        return;
    }
    for side in ["0", "1"] {
        let mut again = Command::new(std::env::current_exe().expect("this program"));
        let again = again.args(["--exact", NAME]).env("TOUCH", side);
        let status = again.output().expect("it is run").status;
        assert!(status.signal().is_some(), "{status}");
    }
}

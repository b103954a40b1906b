//! What a call without a station is lent, cut down.

use super::leave_out;
use crate::input::Input;

/// A shorter input that still fails, lent buffers of the right lengths where that still fails too; the input itself where nothing can be cut.
pub fn shrink_input<I: Input>(input: &I, fails: &dyn Fn(&I) -> bool) -> I {
    let fitting = input.fitting();
    let mut best = if fails(&fitting) { fitting } else { input.clone() };
    leave_out(input.pieces(), |rest| {
        let next = best.with(rest.concat());
        let shows = fails(&next);
        if shows {
            best = next;
        }
        shows
    });
    best
}

//! The two loop passes of the original, run so that an overflow is an answer and not an abort.
//!
//! Built with overflow checks, an indent that leaves 0 to 255 is a panic. It is caught here, and printed by no panic hook.
//! A panic for any other reason would contradict document 01 and is raised again.

use std::any::Any;
use std::cell::Cell;
use std::panic;
use std::sync::Once;

use crate::pseudo::PseudoLine;
use crate::pseudo_types;

/// One of the two loop passes.
#[derive(Debug, Clone, Copy, PartialEq, Eq)]
pub enum Pass {
    Loops,
    GotoLoops,
}

thread_local! {
    static QUIET: Cell<bool> = const { Cell::new(false) };
}

/// The listing as the pass leaves it, or nothing where an indent overflows.
pub fn run(pass: Pass, lines: &[PseudoLine]) -> Option<Vec<PseudoLine>> {
    install_hook();
    let mut lines = lines.to_vec();
    QUIET.set(true);
    let ended = panic::catch_unwind(move || {
        match pass {
            Pass::Loops => pseudo_types::recover_loops(&mut lines),
            Pass::GotoLoops => pseudo_types::recover_goto_loops(&mut lines),
        }
        lines
    });
    QUIET.set(false);
    match ended {
        Ok(lines) => Some(lines),
        Err(cause) if is_overflow(&*cause) => None,
        Err(cause) => panic!("{pass:?} panicked other than by overflow: {}", message(&*cause)),
    }
}

/// Installs, once, a panic hook that prints nothing while a pass runs on the panicking thread.
fn install_hook() {
    static ONCE: Once = Once::new();
    ONCE.call_once(|| {
        let before = panic::take_hook();
        panic::set_hook(Box::new(move |info| {
            if !QUIET.get() {
                before(info);
            }
        }));
    });
}

fn message(cause: &(dyn Any + Send)) -> &str {
    let fixed = cause.downcast_ref::<&str>().copied();
    fixed.or_else(|| cause.downcast_ref::<String>().map(String::as_str)).unwrap_or("no message")
}

fn is_overflow(cause: &(dyn Any + Send)) -> bool {
    matches!(message(cause), "attempt to add with overflow" | "attempt to subtract with overflow")
}

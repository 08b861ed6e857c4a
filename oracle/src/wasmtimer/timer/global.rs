//! Added for the oracle: stands for a file that is not at hand. The harness makes a `Timer` of its own and never asks for the global
//! one.

use super::TimerHandle;

/// Would start the browser's timer.
pub fn run() -> TimerHandle {
    unimplemented!("there is no global timer here")
}

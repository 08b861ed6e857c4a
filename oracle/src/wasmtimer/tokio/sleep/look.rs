//! Added for the oracle: a window on a `Sleep`, for the harness and the cases.

use super::Sleep;
use crate::timer::arc_list::Node;
use crate::timer::ScheduledTimer;
use std::sync::Arc;

impl Sleep {
    /// The node of the timer, where it has one still.
    pub fn node(&self) -> Option<Arc<Node<ScheduledTimer>>> {
        self.state.clone()
    }
}

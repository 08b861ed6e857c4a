//! Added for the oracle: a window on the list of updates, for the harness and the cases.

use super::{ArcList, Node};
use std::sync::atomic::Ordering::SeqCst;

impl<T> ArcList<T> {
    /// Whether the list is sealed.
    pub fn is_sealed(&self) -> bool {
        self.list.load(SeqCst) == Node::sealed()
    }

    /// The nodes in the list, from its head.
    pub fn nodes(&self) -> Vec<*const Node<T>> {
        let mut nodes = Vec::new();
        let mut node = self.list.load(SeqCst);
        while node != Node::EMPTY && node != Node::sealed() {
            nodes.push(node as *const Node<T>);
            // the list holds a reference to each of its nodes
            node = unsafe { (*node).next.load(SeqCst) };
        }
        nodes
    }
}

impl<T> Node<T> {
    /// Whether the node waits in a list.
    pub fn is_enqueued(&self) -> bool {
        self.enqueued.load(SeqCst)
    }

    /// Marks the node as waiting or not, and leaves the list alone.
    pub fn mark_enqueued(&self, enqueued: bool) {
        self.enqueued.store(enqueued, SeqCst);
    }
}

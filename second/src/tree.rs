//! Expressions as trees with shared parts.

use std::collections::HashMap;
use std::fmt;
use std::rc::Rc;

use crate::construct::Construct;

/// An expression. Copies are cheap and share everything below.
///
/// There is no `==` on trees: one may stand for more nodes than could ever be visited.
/// Equality is decided on record numbers ([`crate::proposal`], [`crate::generate::closing`]).
#[derive(Clone)]
pub struct Tree(Rc<Node>);

struct Node {
    construct: Construct<Tree>,
    size: u64,
}

impl Tree {
    pub fn new(construct: Construct<Tree>) -> Tree {
        let size = construct
            .parts()
            .iter()
            .fold(1u64, |sum, part| sum.saturating_add(part.size()));
        Tree(Rc::new(Node { construct, size }))
    }

    pub fn construct(&self) -> &Construct<Tree> {
        &self.0.construct
    }

    /// Number of nodes with shared parts written out; stays at the top of its range.
    pub fn size(&self) -> u64 {
        self.0.size
    }

    fn address(&self) -> *const Node {
        Rc::as_ptr(&self.0)
    }
}

/// Shows the size only: the tree may be too large to be written out.
impl fmt::Debug for Tree {
    fn fmt(&self, formatter: &mut fmt::Formatter) -> fmt::Result {
        write!(formatter, "tree of {} nodes", self.size())
    }
}

/// What is known about trees already visited, so that no shared part is visited twice.
///
/// The key is the tree's address; the tree is kept beside the value so that the address stays taken.
#[derive(Clone)]
pub struct Known<Value>(HashMap<*const Node, (Tree, Value)>);

impl<Value: Clone> Known<Value> {
    pub fn nothing() -> Known<Value> {
        Known(HashMap::new())
    }

    pub fn get(&self, tree: &Tree) -> Option<Value> {
        self.0.get(&tree.address()).map(|(_, value)| value.clone())
    }

    pub fn note(&mut self, tree: &Tree, value: Value) {
        self.0.insert(tree.address(), (tree.clone(), value));
    }
}

/// Short names to write expressions with.
pub mod build {
    use super::{Construct, Tree};

    pub fn silent() -> Tree {
        Tree::new(Construct::Silent)
    }

    pub fn event(event: u8) -> Tree {
        Tree::new(Construct::Event(event))
    }

    pub fn not(x: &Tree) -> Tree {
        Tree::new(Construct::Not(x.clone()))
    }

    pub fn either(x: &Tree, y: &Tree) -> Tree {
        Tree::new(Construct::Either(x.clone(), y.clone()))
    }

    pub fn then(x: &Tree, y: &Tree) -> Tree {
        Tree::new(Construct::Then(x.clone(), y.clone()))
    }

    pub fn repeat(x: &Tree) -> Tree {
        Tree::new(Construct::Repeat(x.clone()))
    }

    pub fn notify(x: &Tree, notices: u16) -> Tree {
        Tree::new(Construct::Notify(x.clone(), notices))
    }

    pub fn try_unless(x: &Tree, y: &Tree) -> Tree {
        Tree::new(Construct::Try(x.clone(), y.clone()))
    }
}

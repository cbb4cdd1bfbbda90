//! A tuned interpreter of PAR. The remainder of a tree never holds two running copies of one part, so the
//! tree is laid out once in an array and a step only changes a phase byte per node. No allocation per event.

use second::status::Status::{self, *};

#[derive(Clone, Copy, PartialEq, Eq)]
enum Kind {
    Silent,
    Event,
    Not,
    Either,
    Then,
    Repeat,
    Notify,
    Try,
}

/// phase: Either 0 both, 1 only x, 2 only y; Then 0 in x, 1 in y; Try 0 both, 1 only x; else unused.
#[derive(Clone, Copy)]
struct Node {
    kind: Kind,
    phase: u8,
    event: u8,
    set: u16,
    x: u16,
    y: u16,
}

pub struct Arena {
    nodes: Vec<Node>,
    root: usize,
    done: bool,
}

fn reset(n: &mut [Node], mut i: usize) {
    loop {
        let v = &mut n[i];
        v.phase = 0;
        let (x, y) = (v.x as usize, v.y as usize);
        match v.kind {
            Kind::Silent | Kind::Event => return,
            Kind::Either | Kind::Try => {
                reset(n, y);
                i = x
            }
            _ => i = x, // the y of a Then is reset when it starts
        }
    }
}

fn step(n: &mut [Node], mut i: usize, e: u8) -> (Status, u16) {
    loop {
        let v = n[i];
        let (x, y) = (v.x as usize, v.y as usize);
        match (v.kind, v.phase) {
            (Kind::Silent, _) => return (Waiting, 0),
            (Kind::Event, _) => return (if v.event == e { Success } else { Waiting }, 0),
            (Kind::Then, 1) | (Kind::Either, 2) => i = y,
            (Kind::Either, 1) | (Kind::Try, 1) => i = x,
            (Kind::Then, _) => {
                let (s, set) = step(n, x, e);
                if s == Success {
                    reset(n, y);
                    n[i].phase = 1;
                    return (Waiting, set);
                }
                return (s, set);
            }
            (Kind::Not, _) => {
                let (s, set) = step(n, x, e);
                return (
                    match s {
                        Success => Failure,
                        Failure => Success,
                        Waiting => Waiting,
                    },
                    set,
                );
            }
            (Kind::Repeat, _) => {
                let (s, set) = step(n, x, e);
                if s == Success {
                    reset(n, x);
                    return (Waiting, set);
                }
                return (s, set);
            }
            (Kind::Notify, _) => {
                let (s, set) = step(n, x, e);
                return (s, if s == Success { set | v.set } else { set });
            }
            (Kind::Either, _) => {
                let ((s, p), (t, q)) = (step(n, x, e), step(n, y, e));
                if s == Failure {
                    n[i].phase = 2
                } else if t == Failure {
                    n[i].phase = 1
                }
                return (s.max(t), p | q);
            }
            (Kind::Try, _) => {
                let ((s, p), (t, q)) = (step(n, x, e), step(n, y, e));
                if t == Failure {
                    n[i].phase = 1
                }
                return (
                    if s != Waiting {
                        s
                    } else if t == Success {
                        Failure
                    } else {
                        Waiting
                    },
                    p | q,
                );
            }
        }
    }
}

impl Arena {
    /// Reads an expression file (trusted layout), writing shared parts out.
    pub fn open(file: &[u8]) -> Arena {
        let (mut at, mut i) = (vec![], 0);
        while i < file.len() {
            at.push(i);
            i += file[i] as usize + 256 * file[i + 1] as usize;
        }
        fn place(f: &[u8], at: &[usize], r: usize, n: &mut Vec<Node>) -> u16 {
            use Kind::*;
            let w = |k: usize| u16::from_le_bytes([f[at[r] + k], f[at[r] + k + 1]]);
            let kind = [
                Silent, Silent, Event, Not, Either, Then, Repeat, Notify, Try,
            ][w(2) as usize];
            let id = n.len();
            n.push(Node {
                kind,
                phase: 0,
                event: 0,
                set: 0,
                x: 0,
                y: 0,
            });
            match kind {
                Silent => {}
                Event => n[id].event = f[at[r] + 4],
                _ => {
                    n[id].x = place(f, at, w(4) as usize, n);
                    match kind {
                        Either | Then | Try => n[id].y = place(f, at, w(6) as usize, n),
                        Notify => n[id].set = w(6),
                        _ => {}
                    }
                }
            }
            id as u16
        }
        let mut nodes = vec![];
        let root = place(file, &at, at.len() - 1, &mut nodes) as usize;
        Arena {
            nodes,
            root,
            done: false,
        }
    }
    pub fn step(&mut self, e: u8) -> (Status, u16) {
        if self.done {
            return (Waiting, 0);
        }
        let (s, set) = step(&mut self.nodes, self.root, e);
        self.done = s != Waiting;
        (s, set)
    }
}

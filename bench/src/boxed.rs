//! A straightforward interpreter of PAR: each event rewrites the tree into what remains of it.

use second::status::Status::{self, *};
use Expr::*;

#[derive(Clone)]
pub enum Expr {
    Silent,
    Event(u8),
    Not(Box<Expr>),
    Either(Box<Expr>, Box<Expr>),
    Then(Box<Expr>, Box<Expr>),
    Repeat(Box<Expr>),
    Notify(Box<Expr>, u16),
    Try(Box<Expr>, Box<Expr>),
}

pub struct Step {
    pub status: Status,
    pub notices: u16,
    pub rest: Expr,
}

fn step_of(status: Status, notices: u16, rest: Expr) -> Step {
    Step {
        status,
        notices,
        rest: if status == Waiting { rest } else { Silent },
    }
}

impl Expr {
    /// Takes the expression apart and builds its remainder.
    pub fn step(self, e: u8) -> Step {
        match self {
            Silent => step_of(Waiting, 0, Silent),
            Event(a) => step_of(if a == e { Success } else { Waiting }, 0, Event(a)),
            Not(x) => {
                let x = x.step(e);
                let status = match x.status {
                    Success => Failure,
                    Failure => Success,
                    Waiting => Waiting,
                };
                step_of(status, x.notices, Not(Box::new(x.rest)))
            }
            Either(x, y) => {
                let (x, y) = (x.step(e), y.step(e));
                let rest = match (x.status, y.status) {
                    (Failure, _) => y.rest,
                    (_, Failure) => x.rest,
                    _ => Either(Box::new(x.rest), Box::new(y.rest)),
                };
                step_of(x.status.max(y.status), x.notices | y.notices, rest)
            }
            Then(x, y) => {
                let x = x.step(e);
                match x.status {
                    Failure => step_of(Failure, x.notices, Silent),
                    Waiting => step_of(Waiting, x.notices, Then(Box::new(x.rest), y)),
                    Success => step_of(Waiting, x.notices, *y),
                }
            }
            Repeat(x) => {
                let s = x.clone().step(e);
                match s.status {
                    Failure => step_of(Failure, s.notices, Silent),
                    Waiting => step_of(
                        Waiting,
                        s.notices,
                        Then(Box::new(s.rest), Box::new(Repeat(x))),
                    ),
                    Success => step_of(Waiting, s.notices, Repeat(x)),
                }
            }
            Notify(x, set) => {
                let x = x.step(e);
                let notices = if x.status == Success {
                    x.notices | set
                } else {
                    x.notices
                };
                step_of(x.status, notices, Notify(Box::new(x.rest), set))
            }
            Try(x, y) => {
                let (x, y) = (x.step(e), y.step(e));
                let status = if x.status != Waiting {
                    x.status
                } else if y.status == Success {
                    Failure
                } else {
                    Waiting
                };
                let rest = if y.status == Failure {
                    x.rest
                } else {
                    Try(Box::new(x.rest), Box::new(y.rest))
                };
                step_of(status, x.notices | y.notices, rest)
            }
        }
    }
}

/// Reads an expression file (trusted layout: no refusal numbers here).
pub fn read(file: &[u8]) -> Expr {
    let (mut recs, mut i): (Vec<Expr>, usize) = (vec![], 0);
    while i < file.len() {
        let w = |k: usize| u16::from_le_bytes([file[i + k], file[i + k + 1]]);
        let r = |k: usize| Box::new(recs[w(k) as usize].clone());
        let x = match w(2) {
            1 => Silent,
            2 => Event(file[i + 4]),
            3 => Not(r(4)),
            4 => Either(r(4), r(6)),
            5 => Then(r(4), r(6)),
            6 => Repeat(r(4)),
            7 => Notify(r(4), w(6)),
            8 => Try(r(4), r(6)),
            k => panic!("kind {k}"),
        };
        i += w(0) as usize;
        recs.push(x);
    }
    recs.pop().unwrap()
}

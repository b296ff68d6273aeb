//! Counters for the twin: a second program from the same sources to which
//! build.rs adds calls to these functions. It tells what the unchanged Rust
//! cannot: how deep `evaluate` went, whether arithmetic met a unit, nil, pair,
//! list, function or intrinsic (row 18), how many nodes document 01 calls made,
//! and which refusal would be met first. With `--stop` it ends there.
use crate::ast::{Expr, TExpr, TPat, Pat};
use crate::error::Error;
use num_traits::ToPrimitive;
use std::cell::RefCell;
use std::sync::atomic::{AtomicBool, Ordering};

/* Ends evaluation at the first refusal, by a panic. */
static STOP: AtomicBool = AtomicBool::new(false);

pub fn stop_at_first() {
    STOP.store(true, Ordering::Relaxed);
}

#[derive(Clone, Default, Debug)]
pub struct Counts {
    pub on: bool,
    pub made: u64,
    pub expansions: u64,
    pub depth: u32,
    pub max_depth: u32,
    pub look: u32,
    pub max_look: u32,
    pub nodes: u64,
    pub first: u32,
    pub made_at_first: u64,
}

thread_local! {
    static C: RefCell<Counts> = RefCell::new(Counts::default());
}

fn with(f: impl FnOnce(&mut Counts)) {
    C.with(|c| {
        let mut c = c.borrow_mut();
        if c.on {
            f(&mut c)
        }
    })
}

pub fn start() {
    C.with(|c| *c.borrow_mut() = Counts { on: true, ..Counts::default() });
}
pub fn counts() -> Counts {
    C.with(|c| {
        c.borrow_mut().on = false;
        c.borrow().clone()
    })
}

/* The port would refuse here; the first such place counts. */
pub fn event(n: u32) {
    let mut stop = false;
    with(|c| {
        if c.first == 0 {
            c.first = n;
            c.made_at_first = c.made;
            stop = STOP.load(Ordering::Relaxed);
        }
    });
    if stop {
        panic!("stopped at refusal {n}");
    }
}

/* An item before the last of a sequence: the Rust discards its error, the port refuses. */
pub fn item(val: &Option<Result<TExpr, Error>>) {
    if let Some(Err(e)) = val {
        event(crate::run::number_of(e.name()));
    }
}

/* No store holds more than 65,535 nodes. */
pub fn made(n: u64) {
    let mut over = false;
    with(|c| {
        c.made += n;
        over = c.made > 65535;
    });
    if over {
        event(30);
    }
}
pub fn expansion() {
    with(|c| c.expansions += 1);
}
pub fn entry(had: bool) {
    if !had {
        made(1);
    }
}
pub fn drawn(id: u32) {
    if id > 65535 {
        event(32);
    }
}

fn pat_nodes(p: &TPat) -> u64 {
    1 + match &p.v {
        Pat::As(a, _) => pat_nodes(a),
        Pat::Product(a, b) | Pat::Cons(a, b) => pat_nodes(a) + pat_nodes(b),
        _ => 0,
    }
}
fn expr_nodes(e: &TExpr) -> u64 {
    1 + match &e.v {
        Expr::Sequence(v) => v.iter().map(expr_nodes).sum(),
        Expr::Product(a, b) | Expr::Cons(a, b) | Expr::Infix(_, a, b) | Expr::Application(a, b) => {
            expr_nodes(a) + expr_nodes(b)
        }
        Expr::Negate(a) => expr_nodes(a),
        Expr::Function(f) => f.params.iter().map(pat_nodes).sum::<u64>() + expr_nodes(&f.body),
        Expr::Intrinsic(i) => i.params.iter().map(pat_nodes).sum(),
        Expr::LetBinding(b, e) => pat_nodes(&b.0) + expr_nodes(&b.1) + expr_nodes(e),
        Expr::Match(m) => {
            expr_nodes(&m.0)
                + m.1.iter().map(pat_nodes).sum::<u64>()
                + m.2.iter().map(expr_nodes).sum::<u64>()
        }
        _ => 0,
    }
}

/* The functions and intrinsics that the refresh of a value makes anew, pairs and lists looked through. */
fn refreshed_nodes(e: &TExpr) -> u64 {
    match &e.v {
        Expr::Function(_) | Expr::Intrinsic(_) => expr_nodes(e),
        Expr::Product(a, b) | Expr::Cons(a, b) => refreshed_nodes(a) + refreshed_nodes(b),
        _ => 0,
    }
}

pub fn refreshed(e: &TExpr) {
    made(refreshed_nodes(e));
}

/* Row 18. */
pub fn arith(e: &TExpr) {
    if let Expr::Unit | Expr::Nil | Expr::Product(..) | Expr::Cons(..) | Expr::Function(_)
    | Expr::Intrinsic(_) = e.v
    {
        event(18);
    }
}

/* Definitions a positive power leaves, tested before it is expanded. */
pub fn power(base: &TExpr, exp: &TExpr, defs: usize) {
    if let (false, Expr::Constant(n)) = (matches!(base.v, Expr::Constant(_)), &exp.v) {
        if let Some(n) = n.to_i64() {
            if n >= 1 {
                let count = (63 - n.leading_zeros()) + n.count_ones() - 1;
                if defs + count as usize > 4096 {
                    event(31);
                }
            }
        }
    }
}

/* A definition or equation goes to a flat list that had `len` entries. */
pub fn pushed(es: &[&TExpr], len: usize) {
    let n: u64 = es.iter().map(|e| expr_nodes(e)).sum();
    with(|c| c.nodes += n);
    let nodes = C.with(|c| c.borrow().nodes);
    if len + 1 > 4096 || nodes > 16384 {
        event(31);
    }
}
pub fn node() {
    with(|c| c.nodes += 1);
    if C.with(|c| c.borrow().nodes) > 16384 {
        event(31);
    }
}
pub fn provers(n: usize) {
    if n > 4096 {
        event(31);
    }
}

pub struct Level;
impl Level {
    pub fn enter() -> Level {
        let mut over = false;
        with(|c| {
            c.depth += 1;
            c.max_depth = c.max_depth.max(c.depth);
            over = c.depth > 256;
        });
        if over {
            event(19);
        }
        Level
    }
}
impl Drop for Level {
    fn drop(&mut self) {
        with(|c| c.depth -= 1);
    }
}

/* Variables looked up in turn by one match, for one pair of pattern and value (docs/DECISIONS.md, 17). */
pub struct Look;
impl Look {
    pub fn enter() -> Look {
        let mut over = false;
        with(|c| {
            c.look += 1;
            c.max_look = c.max_look.max(c.look);
            over = c.look > 256;
        });
        if over {
            event(19);
        }
        Look
    }
}
impl Drop for Look {
    fn drop(&mut self) {
        with(|c| c.look -= 1);
    }
}

/* Where the halves of a pair or cons are matched: each counts its look-ups from 0 (the first leaves 0 behind), and the count of the whole comes back. */
pub struct Half(u32);
impl Half {
    pub fn enter() -> Half {
        let mut before = 0;
        with(|c| before = std::mem::take(&mut c.look));
        Half(before)
    }
}
impl Drop for Half {
    fn drop(&mut self) {
        with(|c| c.look = self.0);
    }
}

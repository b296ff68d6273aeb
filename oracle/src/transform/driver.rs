//! The driver. It is a child module of the module that includes transform.rs
//! unchanged, so it may call that file's private functions.
use super::*;
use crate::ast::Match;
use crate::field::{canon, Field};
use crate::record::{integer, Cons, Flat, Node, Source, NONE};

const OPS: [InfixOp; 9] = [
    InfixOp::Divide,
    InfixOp::DivideZ,
    InfixOp::Multiply,
    InfixOp::Add,
    InfixOp::Subtract,
    InfixOp::Equal,
    InfixOp::Exponentiate,
    InfixOp::IntDivide,
    InfixOp::Modulo,
];

pub fn op_of(n: u32) -> InfixOp {
    OPS[n as usize]
}

pub fn op_number(op: InfixOp) -> u32 {
    OPS.iter().position(|o| *o == op).unwrap() as u32
}

/* ---- source record -> Module ---- */

struct Reader<'a> {
    s: &'a Source,
}

impl Reader<'_> {
    fn name(&self, n: u32) -> Variable {
        Variable { name: Some(self.s.names[n as usize].clone()), id: 0 }
    }

    fn links(&self, mut l: u32) -> Vec<(u32, u32)> {
        let mut out = Vec::new();
        while l != NONE {
            let [_, item, next, res] = self.s.nodes[l as usize];
            out.push((item, res));
            l = next;
        }
        out
    }

    fn pat(&self, n: u32) -> TPat {
        let [k, a, b, _] = self.s.nodes[n as usize];
        let v = match k {
            16 => Pat::Unit,
            17 => Pat::Nil,
            18 => Pat::As(Box::new(self.pat(a)), self.name(b)),
            19 => Pat::Product(Box::new(self.pat(a)), Box::new(self.pat(b))),
            20 => Pat::Cons(Box::new(self.pat(a)), Box::new(self.pat(b))),
            21 => Pat::Variable(self.name(a)),
            22 => Pat::Constant(BigInt::from(integer(a, b))),
            _ => unreachable!("not a pattern"),
        };
        TPat { v, t: None }
    }

    fn expr(&self, n: u32) -> TExpr {
        let [k, a, b, c] = self.s.nodes[n as usize];
        let v = match k {
            0 => Expr::Unit,
            1 => Expr::Nil,
            2 => Expr::Product(Box::new(self.expr(a)), Box::new(self.expr(b))),
            3 => Expr::Cons(Box::new(self.expr(a)), Box::new(self.expr(b))),
            4 => Expr::Infix(op_of(c), Box::new(self.expr(a)), Box::new(self.expr(b))),
            5 => Expr::Negate(Box::new(self.expr(a))),
            6 => Expr::Application(Box::new(self.expr(a)), Box::new(self.expr(b))),
            7 => Expr::Constant(BigInt::from(integer(a, b))),
            8 => Expr::Variable(self.name(a)),
            9 => Expr::Function(Function {
                params: self.links(a).iter().map(|(p, _)| self.pat(*p)).collect(),
                body: Box::new(self.expr(b)),
                env: HashMap::new(),
            }),
            11 => Expr::LetBinding(
                LetBinding(self.pat(a), Box::new(self.expr(b))),
                Box::new(self.expr(c)),
            ),
            12 => {
                let arms = self.links(b);
                Expr::Match(Match(
                    Box::new(self.expr(a)),
                    arms.iter().map(|(p, _)| self.pat(*p)).collect(),
                    arms.iter().map(|(_, r)| self.expr(*r)).collect(),
                ))
            }
            13 => Expr::Sequence(self.links(a).iter().map(|(e, _)| self.expr(*e)).collect()),
            _ => unreachable!("not an expression"),
        };
        TExpr { v, t: None }
    }
}

pub fn module_of_source(s: &Source) -> Module {
    let r = Reader { s };
    Module {
        pubs: s.pubs.iter().map(|p| r.name(*p)).collect(),
        defs: s
            .defs
            .iter()
            .map(|(p, v)| Definition(LetBinding(r.pat(*p), Box::new(r.expr(*v)))))
            .collect(),
        exprs: s.exprs.iter().map(|e| r.expr(*e)).collect(),
    }
}

/* ---- Module <-> flat record ---- */

fn constant_word(c: &BigInt) -> u32 {
    c.to_i32().expect("constant beyond 32 bits") as u32
}

/* A constant beyond 32 bits goes into a flat list as its element (document 02
 * (i)); only a pattern's constant can be one. The Rust keeps it: this is where
 * the oracle follows the port. */
fn narrow(e: &mut TExpr) {
    match &mut e.v {
        Expr::Infix(_, a, b) => {
            narrow(a);
            narrow(b);
        }
        Expr::Negate(a) => narrow(a),
        Expr::Constant(c) if c.to_i32().is_none() => {
            *c = BigInt::from(canon(c.to_i64().expect("constant beyond 64 bits")));
        }
        _ => {}
    }
}

fn narrow_lists(m: &mut Module) {
    for Definition(LetBinding(_, e)) in &mut m.defs {
        narrow(e);
    }
    for e in &mut m.exprs {
        narrow(e);
    }
}

/* Writes the tree, children first, left to right. None if the tree has a kind
 * that flat records do not know (ill-typed modules: arithmetic on unit, nil,
 * pairs, lists, functions, intrinsics). */
fn put_expr(e: &TExpr, nodes: &mut Vec<Node>) -> Option<u32> {
    let node = match &e.v {
        Expr::Infix(op, a, b) => {
            let a = put_expr(a, nodes)?;
            let b = put_expr(b, nodes)?;
            [4, a, b, op_number(*op)]
        }
        Expr::Negate(a) => [5, put_expr(a, nodes)?, 0, 0],
        Expr::Constant(c) => [7, constant_word(c), 0, 0],
        Expr::Variable(v) => [8, v.id, 0, 0],
        _ => return None,
    };
    nodes.push(node);
    Some(nodes.len() as u32 - 1)
}

fn sorted(set: &HashSet<VariableId>) -> Vec<u32> {
    let mut v: Vec<u32> = set.iter().copied().collect();
    v.sort();
    v
}

fn def_id(def: &Definition) -> u32 {
    match &def.0 .0.v {
        Pat::Variable(v) => v.id,
        _ => panic!("oracle: definition of no variable: {}", def.0 .0),
    }
}

/* The places of a module's definitions and of its expressions (document 02
 * (x)). The Rust knows none: they are told by the length of its lists before
 * and after each of what fills them. */
#[derive(Clone, Default)]
pub struct Places {
    defs: Vec<u32>,
    exprs: Vec<u32>,
}

impl Places {
    fn none(m: &Module) -> Places {
        Places { defs: vec![0; m.defs.len()], exprs: vec![0; m.exprs.len()] }
    }
    /* What the module has more than before has this place. */
    fn note(&mut self, m: &Module, place: u32) {
        assert!(self.defs.len() <= m.defs.len() && self.exprs.len() <= m.exprs.len(), "oracle: a list shrank");
        self.defs.resize(m.defs.len(), place);
        self.exprs.resize(m.exprs.len(), place);
    }
}

pub fn flat_of_module(m: &Module, places: &Places, prover_defs: &HashSet<VariableId>, next: u32) -> Option<Flat> {
    let mut f = Flat { next, ..Flat::default() };
    f.pubs = m.pubs.iter().map(|v| v.id).collect();
    f.provers = sorted(prover_defs);
    for (def, place) in m.defs.iter().zip(&places.defs) {
        let n = put_expr(&def.0 .1, &mut f.nodes)?;
        f.defs.push([def_id(def), n, *place]);
    }
    for (e, place) in m.exprs.iter().zip(&places.exprs) {
        match &e.v {
            Expr::Infix(InfixOp::Equal, l, r) => {
                let l = put_expr(l, &mut f.nodes)?;
                let r = put_expr(r, &mut f.nodes)?;
                f.eqs.push([l, r, *place]);
            }
            _ => panic!("oracle: a flat expression is no equation: {e}"),
        }
    }
    Some(f)
}

fn get_expr(f: &Flat, n: u32) -> TExpr {
    let [k, a, b, c] = f.nodes[n as usize];
    let v = match k {
        4 => Expr::Infix(op_of(c), Box::new(get_expr(f, a)), Box::new(get_expr(f, b))),
        5 => Expr::Negate(Box::new(get_expr(f, a))),
        7 => Expr::Constant(BigInt::from(a as i32)),
        8 => Expr::Variable(Variable::new(a)),
        _ => unreachable!("not a flat node"),
    };
    TExpr { v, t: None }
}

pub fn module_of_flat(f: &Flat) -> (Module, Places, HashSet<VariableId>) {
    let m = Module {
        pubs: f.pubs.iter().map(|v| Variable::new(*v)).collect(),
        defs: f
            .defs
            .iter()
            .map(|[v, n, _]| {
                Definition(LetBinding(
                    Pat::Variable(Variable::new(*v)).type_pat(None),
                    Box::new(get_expr(f, *n)),
                ))
            })
            .collect(),
        exprs: f
            .eqs
            .iter()
            .map(|[l, r, _]| {
                Expr::Infix(
                    InfixOp::Equal,
                    Box::new(get_expr(f, *l)),
                    Box::new(get_expr(f, *r)),
                )
                .type_expr(None)
            })
            .collect(),
    };
    let places = Places {
        defs: f.defs.iter().map(|e| e[2]).collect(),
        exprs: f.eqs.iter().map(|e| e[2]).collect(),
    };
    (m, places, f.provers.iter().copied().collect())
}

/* ---- the passes and the constraint record ---- */

fn term(e: &TExpr) -> [u32; 2] {
    match &e.v {
        Expr::Variable(v) => [0, v.id],
        Expr::Constant(c) => [1, constant_word(c)],
        _ => panic!("oracle: no term: {e}"),
    }
}

/* The four passes in document 01's order. */
pub fn passes(flat: Module, places: &Places, prover_defs: HashSet<VariableId>, next: u32) -> Cons {
    let whole = passes_whole(flat.clone(), prover_defs.clone(), next);
    let by_entry = passes_by_entry(&flat, places, prover_defs, next);
    assert!(whole == by_entry.without_places(), "{DIFFERS}the passes entry by entry");
    by_entry
}

/* What begins the message where the Rust's functions give one answer called
 * whole, and another one called part by part. */
pub const DIFFERS: &str = "oracle: another answer by ";

fn passes_whole(flat: Module, mut prover_defs: HashSet<VariableId>, next: u32) -> Cons {
    let mut gen = VarGen(next);
    let mut omodule = Some(flat);
    classify_defs(&mut omodule, &mut prover_defs);
    let module = omodule.as_mut().unwrap();
    copy_propagate(module, &prover_defs);
    eliminate_dead_equalities(module);
    let mut out = Module::default();
    flatten_module_to_3ac(&omodule, &prover_defs, &mut out, &mut gen);
    cons_of(&out, &Places::none(&out), &prover_defs, gen.0)
}

/* The same with the places of what stays. Copy propagation keeps both lists as
 * they are; the passes before and behind it get the entries one by one. */
fn passes_by_entry(flat: &Module, places: &Places, mut prover_defs: HashSet<VariableId>, next: u32) -> Cons {
    let mut gen = VarGen(next);
    let left = classified_places(flat, &mut prover_defs);
    let defs = left.iter().map(|i| flat.defs[*i].clone()).collect();
    let mut module = Module { pubs: flat.pubs.clone(), defs, exprs: flat.exprs.clone() };
    copy_propagate(&mut module, &prover_defs);
    let mut out = Module { pubs: module.pubs, ..Module::default() };
    let mut cut = Places::default();
    for (def, i) in module.defs.into_iter().zip(left) {
        let one = Some(Module { defs: vec![def], ..Module::default() });
        flatten_module_to_3ac(&one, &prover_defs, &mut out, &mut gen);
        cut.note(&out, places.defs[i]);
    }
    for (expr, place) in module.exprs.into_iter().zip(&places.exprs) {
        let mut one = Module { exprs: vec![expr], ..Module::default() };
        eliminate_dead_equalities(&mut one);
        flatten_module_to_3ac(&Some(one), &prover_defs, &mut out, &mut gen);
        cut.note(&out, *place);
    }
    cons_of(&out, &cut, &prover_defs, gen.0)
}

/* The Rust's classify_defs alone: which definitions it leaves. Each is marked
 * with where it stands by a name, which no pass looks at. */
fn classified_places(flat: &Module, prover_defs: &mut HashSet<VariableId>) -> Vec<usize> {
    let mut marked = flat.clone();
    for (i, d) in marked.defs.iter_mut().enumerate() {
        if let Pat::Variable(v) = &mut d.0 .0.v {
            v.name = Some(i.to_string());
        }
    }
    let mut marked = Some(marked);
    classify_defs(&mut marked, prover_defs);
    let name = |d: &Definition| match &d.0 .0.v {
        Pat::Variable(v) => v.name.as_ref().unwrap().parse().unwrap(),
        _ => unreachable!(),
    };
    marked.unwrap().defs.iter().map(name).collect()
}

/* The constraint record of the last pass's lists. */
fn cons_of(out: &Module, places: &Places, prover_defs: &HashSet<VariableId>, next: u32) -> Cons {
    let mut c = Cons { next, ..Cons::default() };
    c.pubs = out.pubs.iter().map(|v| v.id).collect();
    c.provers = sorted(prover_defs);
    for (e, place) in out.exprs.iter().zip(&places.exprs) {
        let (l, r) = match &e.v {
            Expr::Infix(InfixOp::Equal, l, r) => (l, r),
            _ => panic!("oracle: no equality: {e}"),
        };
        let [l0, l1] = term(l);
        c.eqs.push(match &r.v {
            Expr::Infix(op, a, b) => {
                let ([a0, a1], [b0, b1]) = (term(a), term(b));
                [l0, l1, op_number(*op), a0, a1, b0, b1, *place]
            }
            Expr::Negate(a) => {
                let [a0, a1] = term(a);
                [l0, l1, 9, a0, a1, 0, 0, *place]
            }
            _ => {
                let [a0, a1] = term(r);
                [l0, l1, 10, a0, a1, 0, 0, *place]
            }
        });
    }
    for (def, place) in out.defs.iter().zip(&places.defs) {
        // The Rust's list has each equality's definition too (its left side may
        // be a constant pattern only where the last one of an equation was
        // popped, so never here).
        if let Pat::Variable(v) = &def.0 .0.v {
            if prover_defs.contains(&v.id) {
                let n = put_expr(&def.0 .1, &mut c.nodes).expect("oracle: kept definition not flat");
                c.kept.push([v.id, n, *place]);
            }
        } else {
            panic!("oracle: definition of no variable left: {}", def.0 .0);
        }
    }
    c
}

/* ---- whole runs ---- */

pub struct Evaluated {
    pub module: Module,
    pub places: Places,
    pub prover_defs: HashSet<VariableId>,
    pub gen: VarGen,
}

impl Evaluated {
    pub fn flat(&self) -> Option<Flat> {
        flat_of_module(&self.module, &self.places, &self.prover_defs, self.gen.0)
    }
    pub fn next(&self) -> u32 {
        self.gen.0
    }
    pub fn passes(self) -> Cons {
        passes(self.module, &self.places, self.prover_defs, self.gen.0)
    }
    /* The same but for the places; lists that no flat record has by their text. */
    fn same(&self, other: &Evaluated) -> bool {
        match (self.flat(), other.flat()) {
            (Some(a), Some(b)) => a.without_places() == b.without_places(),
            (None, None) => {
                self.module.to_string() == other.module.to_string()
                    && sorted(&self.prover_defs) == sorted(&other.prover_defs)
                    && self.gen.0 == other.gen.0
            }
            _ => false,
        }
    }
    /* The same with places, by a second run. */
    pub fn placed(&self, s: &Source) -> Evaluated {
        let placed = evaluate_by_statement(s);
        assert!(self.same(&placed), "{DIFFERS}evaluation statement by statement");
        placed
    }
}

/* A numbered module with what numbering leaves for evaluation. */
struct Numbered {
    module: Module,
    bindings: HashMap<VariableId, TExpr>,
    gen: VarGen,
}

/* Registers fresh, iter, fold; numbers the module. */
fn numbered(s: &Source) -> Numbered {
    let mut module = module_of_source(s);
    let mut gen = VarGen::new();
    let mut globals = HashMap::new();
    let mut bindings = HashMap::new();
    let mut global_types = HashMap::new();
    register_fresh_intrinsic(&mut globals, &mut global_types, &mut bindings, &mut gen);
    register_iter_intrinsic(&mut globals, &mut global_types, &mut bindings, &mut gen);
    register_fold_intrinsic(&mut globals, &mut global_types, &mut bindings, &mut gen);
    number_module_variables(&mut module, &mut globals, &mut gen, &mut HashMap::new());
    Numbered { module, bindings, gen }
}

/* Numbers the module and evaluates it. Evaluation never reads the flat lists
 * again, so that narrowing them behind it is narrowing what is pushed. No place
 * is known here. */
pub fn evaluate_whole(s: &Source) -> Evaluated {
    let Numbered { module, mut bindings, mut gen } = numbered(s);
    let mut prover_defs = HashSet::new();
    let mut flattened = Some(Module::default());
    #[cfg(feature = "twin")]
    crate::twin::start();
    evaluate_module(
        &module,
        &mut flattened,
        &mut bindings,
        &mut prover_defs,
        &Field,
        &mut gen,
    );
    let mut module = flattened.unwrap();
    narrow_lists(&mut module);
    Evaluated { places: Places::none(&module), module, prover_defs, gen }
}

/* The same statement by statement, each as a module of its own that goes on
 * with what the last one left: an entry's place is that of the statement in
 * whose evaluation it was pushed. */
pub fn evaluate_by_statement(s: &Source) -> Evaluated {
    let Numbered { module, mut bindings, mut gen } = numbered(s);
    let mut prover_defs = HashSet::new();
    let mut flattened = Some(Module { pubs: module.pubs, ..Module::default() });
    let mut places = Places::default();
    let defs = module.defs.into_iter().map(|d| Module { defs: vec![d], ..Module::default() });
    let exprs = module.exprs.into_iter().map(|e| Module { exprs: vec![e], ..Module::default() });
    for (place, one) in defs.chain(exprs).enumerate() {
        evaluate_module(&one, &mut flattened, &mut bindings, &mut prover_defs, &Field, &mut gen);
        places.note(flattened.as_ref().unwrap(), place as u32);
    }
    let mut module = flattened.unwrap();
    narrow_lists(&mut module);
    Evaluated { module, places, prover_defs, gen }
}

/* The numbered module alone, printed by the Rust's own Display (for looking at
 * ids; document 01 has no record for it). */
pub fn numbered_text(s: &Source) -> String {
    let n = numbered(s);
    format!("{}next id {}\n", n.module, n.gen.0)
}

/* ---- the ids of a numbered module at the nodes of its record ---- */

/* Walks the record and the numbered module, which has the same shape. */
struct Ids<'a> {
    s: &'a Source,
    ids: Vec<Option<u32>>,
}

impl Ids<'_> {
    fn links(&self, l: u32) -> Vec<(u32, u32)> {
        Reader { s: self.s }.links(l)
    }

    fn pat(&mut self, n: u32, p: &TPat) {
        let [_, a, b, _] = self.s.nodes[n as usize];
        match &p.v {
            Pat::As(inner, v) => {
                self.pat(a, inner);
                self.ids[n as usize] = Some(v.id);
            }
            Pat::Product(x, y) | Pat::Cons(x, y) => {
                self.pat(a, x);
                self.pat(b, y);
            }
            Pat::Variable(v) => self.ids[n as usize] = Some(v.id),
            Pat::Unit | Pat::Nil | Pat::Constant(_) => {}
        }
    }

    fn expr(&mut self, n: u32, e: &TExpr) {
        let [_, a, b, c] = self.s.nodes[n as usize];
        match &e.v {
            Expr::Sequence(items) => {
                for ((item, _), x) in self.links(a).into_iter().zip(items) {
                    self.expr(item, x);
                }
            }
            Expr::Product(x, y) | Expr::Cons(x, y) | Expr::Infix(_, x, y) | Expr::Application(x, y) => {
                self.expr(a, x);
                self.expr(b, y);
            }
            Expr::Negate(x) => self.expr(a, x),
            Expr::Variable(v) => self.ids[n as usize] = Some(v.id),
            Expr::Function(f) => {
                for ((param, _), p) in self.links(a).into_iter().zip(&f.params) {
                    self.pat(param, p);
                }
                self.expr(b, &f.body);
            }
            Expr::LetBinding(binding, body) => {
                self.pat(a, &binding.0);
                self.expr(b, &binding.1);
                self.expr(c, body);
            }
            Expr::Match(m) => {
                self.expr(a, &m.0);
                for ((pat, result), (p, x)) in self.links(b).into_iter().zip(m.1.iter().zip(&m.2)) {
                    self.pat(pat, p);
                    self.expr(result, x);
                }
            }
            Expr::Unit | Expr::Nil | Expr::Constant(_) | Expr::Intrinsic(_) => {}
        }
    }
}

pub fn next_id(s: &Source) -> u32 {
    numbered(s).gen.0
}

/* `next N pubs I,I,.. ids I,-,..`: the ids at the nodes in record order, `-` at a node with no name. */
pub fn numbers_line(s: &Source) -> String {
    let n = numbered(s);
    let mut at = Ids { s, ids: vec![None; s.nodes.len()] };
    for ((p, v), def) in s.defs.iter().zip(&n.module.defs) {
        at.pat(*p, &def.0 .0);
        at.expr(*v, &def.0 .1);
    }
    for (e, x) in s.exprs.iter().zip(&n.module.exprs) {
        at.expr(*e, x);
    }
    let pubs: Vec<String> = n.module.pubs.iter().map(|v| v.id.to_string()).collect();
    let ids: Vec<String> = at.ids.iter().map(|i| i.map_or("-".to_string(), |i| i.to_string())).collect();
    format!("next {} pubs {} ids {}", n.gen.0, pubs.join(","), ids.join(","))
}

pub fn run_flat(f: &Flat) -> Cons {
    let (m, places, p) = module_of_flat(f);
    passes(m, &places, p, f.next)
}

/* ---- document 01's wording of classify_defs against the Rust ---- */

/* The Rust's classify_defs alone: where the definitions stood that are left,
 * and the prover ids after it. */
fn classified(f: &Flat) -> (Vec<usize>, Vec<u32>) {
    let (m, _, mut p) = module_of_flat(f);
    let left = classified_places(&m, &mut p);
    (left, sorted(&p))
}

fn flat_vars(f: &Flat, n: u32, out: &mut Vec<u32>) {
    let [k, a, b, _] = f.nodes[n as usize];
    match k {
        4 => {
            flat_vars(f, a, out);
            flat_vars(f, b, out);
        }
        5 => flat_vars(f, a, out),
        8 => out.push(a),
        _ => {}
    }
}

/* The same by document 01's sentence, as a fixed point: counted ids are those
 * reached from an equation through counted definitions; reached ones are those
 * reached from an equation through any definition. */
pub fn classify_differs(f: &Flat) -> Option<String> {
    let given: HashSet<u32> = f.provers.iter().copied().collect();
    let mut con: HashSet<u32> = HashSet::new();
    let mut any: HashSet<u32> = HashSet::new();
    let mut vs = Vec::new();
    for [l, r, _] in &f.eqs {
        flat_vars(f, *l, &mut vs);
        flat_vars(f, *r, &mut vs);
    }
    con.extend(&vs);
    any.extend(&vs);
    loop {
        let size = (con.len(), any.len());
        for [id, n, _] in &f.defs {
            let mut vs = Vec::new();
            flat_vars(f, *n, &mut vs);
            if con.contains(id) && !given.contains(id) {
                con.extend(&vs);
            }
            if any.contains(id) {
                any.extend(&vs);
            }
        }
        if size == (con.len(), any.len()) {
            break;
        }
    }
    let left: Vec<usize> = (0..f.defs.len()).filter(|i| any.contains(&f.defs[*i][0])).collect();
    let mut provers: HashSet<u32> = given.clone();
    provers.extend(any.iter().filter(|v| !con.contains(v)));
    let want = (left, sorted(&provers));
    let got = classified(f);
    if want == got {
        None
    } else {
        Some(format!("document {want:?} rust {got:?}"))
    }
}

/* Does copy propagation meet an id whose substitution changes (defined twice),
 * or one that was used before? Returns (twice defined, used before defined). */
pub fn order_facts(f: &Flat) -> (bool, bool) {
    let mut defined = HashSet::new();
    let mut used = HashSet::new();
    let (mut twice, mut before) = (false, false);
    for [id, n, _] in &f.defs {
        let mut vs = Vec::new();
        flat_vars(f, *n, &mut vs);
        used.extend(vs);
        before |= !defined.contains(id) && used.contains(id);
        twice |= !defined.insert(*id);
    }
    (twice, before)
}

// Copies the three Rust files from $VAMPIR_SRC to OUT_DIR: unchanged for the oracle; with the feature `twin`, with counting
// calls put into the copies (see README, "The twin").
use std::{env, fs, path::Path};

fn main() {
    println!("cargo:rerun-if-env-changed=VAMPIR_SRC");
    println!("cargo:rerun-if-changed=build.rs");
    let src = env::var("VAMPIR_SRC").expect("use build.sh, or set VAMPIR_SRC");
    let out = env::var("OUT_DIR").unwrap();
    let twin = env::var("CARGO_FEATURE_TWIN").is_ok();
    for (file, calls) in [("transform.rs", TRANSFORM), ("ast.rs", AST), ("typecheck.rs", TYPECHECK)] {
        let from = Path::new(&src).join(file);
        println!("cargo:rerun-if-changed={}", from.display());
        let text = fs::read_to_string(&from).unwrap_or_else(|e| panic!("{}: {e}", from.display()));
        let text = if twin { counted(&text, calls) } else { text };
        fs::write(Path::new(&out).join(file), text).unwrap();
    }
}

// A counting call: a statement put before a line, or a block around the value of the field that the line writes.
enum Call {
    Before(usize, &'static str),
    Field(usize),
}
use Call::{Before, Field};

const MADE: &str = "crate::twin::made(1);";

// The lines are those of commit 45fad88e15; build.sh compares the files' hashes.
const AST: &[Call] = &[
    Before(310, MADE), // type_pat
    Before(394, MADE), // to_expr
    Before(463, MADE), // type_expr
];

const TYPECHECK: &[Call] = &[
    Before(747, MADE), // expansion writes a pair pattern
    Before(765, MADE), // and a cons pattern
];

const TRANSFORM: &[Call] = &[
    Before(29, "crate::twin::drawn(self.0);"),
    // matching: a look-up, the halves of a pair or cons, prover ids of a split, its entry in the bindings
    Before(113, "let _look = crate::twin::Look::enter();"),
    Before(126, "let _half = crate::twin::Half::enter();"),
    Before(136, "crate::twin::provers(prover_defs.len());"),
    Before(141, "crate::twin::expansion();"),
    Before(154, "crate::twin::provers(prover_defs.len());"),
    Before(159, "crate::twin::expansion();"),
    // refreshing: prover ids of pattern variables
    Before(189, "crate::twin::provers(prover_defs.len());"),
    Before(200, "crate::twin::provers(prover_defs.len());"),
    // entries of an env
    Before(428, "crate::twin::entry(fun.env.contains_key(&k));"),
    Before(434, "crate::twin::entry(intr.env.contains_key(&k));"),
    Before(498, "for k in new_bindings.keys() { crate::twin::entry(intr.env.contains_key(k)); }"),
    Before(538, "for k in new_bindings.keys() { crate::twin::entry(fun.env.contains_key(k)); }"),
    // evaluation: its depth, what an application refreshes, the sides of operators
    Before(465, "let _level = crate::twin::Level::enter();"),
    Before(468, "crate::twin::refreshed(&expr1);"),
    Before(620, "if !std::ptr::eq(expr, seq.last().unwrap()) { crate::twin::item(&val); }"), // what a sequence discards
    Before(648, "crate::twin::arith(&e1); crate::twin::arith(&e2);"),
    Before(648, "if let Some(flat) = flattened { crate::twin::power(&e1, &e2, flat.defs.len()); }"),
    Before(699, "crate::twin::arith(&expr1); crate::twin::arith(&expr2);"),
    Before(712, "crate::twin::pushed(&[&binding.0.1], flat.defs.len());"),
    Before(720, "crate::twin::arith(&expr1);"),
    Before(766, MADE), // the let of a match
    // simplification: a new constant, two new operations
    Field(937),
    Field(944),
    Field(959),
    // flattening: a definition, the equation of a constant pattern, an equation; each after the nodes are made
    Before(974, "crate::twin::pushed(&[expr], flattened.defs.len());"),
    Before(990, "crate::twin::pushed(&[expr], flattened.exprs.len() - 1); crate::twin::node();"),
    Before(1030, "crate::twin::pushed(&[expr1, expr2], flattened.exprs.len() - 1);"),
    // fresh
    Before(1459, "crate::twin::provers(prover_defs.len()); crate::twin::made(1);"),
    // iter: the function's variable, the body, each application, the function
    Before(1570, MADE),
    Before(1577, MADE),
    Before(1587, MADE),
    Before(1592, MADE),
    // fold: the same, and the inner application
    Before(1677, MADE),
    Before(1696, MADE),
    Before(1701, MADE),
    Field(1704),
    Before(1712, MADE),
];

fn counted(text: &str, calls: &[Call]) -> String {
    let mut out = String::new();
    for (at, line) in text.lines().enumerate() {
        let mut line = line.to_string();
        for call in calls {
            match call {
                Before(n, put) if *n == at + 1 => out += &format!("{put}\n"),
                Field(n) if *n == at + 1 => {
                    let value = line.trim().strip_prefix("v: ").and_then(|v| v.strip_suffix(','));
                    line = format!("v: {{ {MADE} {} }},", value.expect("a line that writes v"));
                }
                _ => {}
            }
        }
        out += &line;
        out += "\n";
    }
    out
}

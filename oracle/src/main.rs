//! The Rust as an oracle: see README.md.
#[macro_use]
extern crate pest_derive;
extern crate pest;

// The three Rust files, copied unchanged to OUT_DIR by build.rs.
#[allow(warnings)]
mod ast {
    include!(concat!(env!("OUT_DIR"), "/ast.rs"));
}
#[allow(warnings)]
mod typecheck {
    include!(concat!(env!("OUT_DIR"), "/typecheck.rs"));
}
mod transform {
    #![allow(warnings)]
    include!(concat!(env!("OUT_DIR"), "/transform.rs"));
    // A child module sees its parent's private functions.
    pub mod driver;
}
mod error;
mod field;
mod gen;
mod record;
mod run;
mod text;
#[cfg(feature = "twin")]
mod twin;
mod util;

use record::{Cons, Flat, Source};
use std::io::{BufRead, BufReader, Read, Write};
use transform::driver;

const USAGE: &str = "usage: oracle COMMAND
  src [FILE]          source record (binary) -> result line
  flat [FILE]         lent flat record (binary) -> result line
  equalities [FILE]   flat record -> the text of program `equalities`
  batch src|flat|flat-any [--stop] [--timeout S] [--jobs N] [FILE]
                      one hex record per line -> one result line each; flat-any
                      takes flat records made by evaluation (no rules of lent ones);
                      --stop: the twin ends a record at its first refusal
  numbers [FILE]      hex source records -> the ids of the numbered module at their nodes
  evaluate [FILE]     hex source records that the Rust accepts -> their flat records, without the passes: for times
  gen-src SEED COUNT [mixed|plain|rich|big|deep] [--ops LIST]   hex source records
  gen-flat SEED COUNT [--ops LIST]            hex flat records; with --ops, as 7,8, rich in these operators
  asm [FILE]          text form -> hex source record (see src/text.rs)
  dis                 hex source records -> text form
  explain [FILE]      text form -> numbered module, flat record, constraint record
  show-flat, show-cons  hex records -> text
  check-flats         result lines of batch src -> compares classify_defs with
                      document 01's sentence
  case-f              prints case F of document 01
  unhex               one hex line -> binary";

fn input(args: &[String]) -> Box<dyn Read> {
    match args.iter().find(|a| !a.starts_with("--")) {
        Some(f) => Box::new(std::fs::File::open(f).unwrap_or_else(|e| panic!("{f}: {e}"))),
        None => Box::new(std::io::stdin()),
    }
}

fn bytes(args: &[String]) -> Vec<u8> {
    let mut b = Vec::new();
    input(args).read_to_end(&mut b).unwrap();
    b
}

fn take_opt(args: &mut Vec<String>, name: &str) -> Option<String> {
    let i = args.iter().position(|a| a == name)?;
    args.remove(i);
    Some(args.remove(i))
}

fn hex_lines(args: &[String]) -> Vec<Vec<u8>> {
    BufReader::new(input(args))
        .lines()
        .map(|l| l.unwrap())
        .filter(|l| !l.trim().is_empty())
        .map(|l| record::from_hex(&l).expect("hex"))
        .collect()
}

fn case_f() -> Flat {
    // next id 10, definition 2 = (v0 + 1) * v0, equation v2 = v1; the places 3 and 8 are ours
    Flat {
        next: 10,
        pubs: vec![],
        provers: vec![],
        defs: vec![[2, 4, 3]],
        eqs: vec![[5, 6, 8]],
        nodes: vec![
            [8, 0, 0, 0],
            [7, 1, 0, 0],
            [4, 0, 1, 3],
            [8, 0, 0, 0],
            [4, 2, 3, 2],
            [8, 2, 0, 0],
            [8, 1, 0, 0],
        ],
    }
}

fn equalities(b: &[u8]) -> String {
    // Program `equalities` lends 65,536 bytes for the record and for the output.
    if b.len() > 65536 {
        return "refused 20\n".to_string();
    }
    match Flat::parse(b).and_then(|f| f.check_lent().map(|_| f)) {
        Ok(f) => {
            let c = driver::run_flat(&f);
            // The last pass drew an id above 65,535.
            if c.next > 65536 {
                return "refused 32\n".to_string();
            }
            if c.to_bytes().len() > 65536 {
                return "refused 33\n".to_string();
            }
            text::equalities(&c)
        }
        Err(n) => format!("refused {n}\n"),
    }
}

fn explain(s: &Source) -> String {
    run::silence_panics();
    let mut out = String::new();
    let b = s.to_bytes();
    if let Err(n) = Source::parse(&b) {
        return format!("not a valid source record: {n}\n");
    }
    out += "-- source\n";
    out += &text::disassemble(s);
    out += "-- numbered\n";
    out += &driver::numbered_text(s);
    let line = run::src_line(&b, &mut |_| ());
    for w in line.split(' ') {
        if let Some(h) = w.strip_prefix("flat=") {
            if let Some(b) = record::from_hex(h) {
                out += "-- flat record\n";
                out += &text::show_flat(&Flat::parse_any(&b).unwrap());
            }
        }
        if let Some(h) = w.strip_prefix("cons=") {
            out += "-- constraint record\n";
            out += &text::show_cons(&Cons::parse(&record::from_hex(h).unwrap()).unwrap());
        }
    }
    if !line.starts_with("ok ") || line.contains("discarded") || line.contains("nonflat") {
        let short: Vec<&str> =
            line.split(' ').filter(|w| !w.starts_with("flat=0") && !w.starts_with("cons=")).collect();
        out += "-- result\n";
        out += &short.join(" ");
        out += "\n";
    }
    out
}

/* One line for each hex record. */
fn each_record(args: &[String], out: &mut dyn Write, f: impl Fn(&[u8]) -> String) {
    for b in hex_lines(args) {
        writeln!(out, "{}", f(&b)).unwrap();
    }
}

fn numbers(b: &[u8]) -> String {
    match Source::parse(b) {
        Ok(s) => driver::numbers_line(&s),
        Err(n) => format!("refused {n}"),
    }
}

/* Numbering and evaluation alone; of records that the Rust accepts. */
fn evaluate(b: &[u8]) -> String {
    let s = Source::parse(b).unwrap();
    record::to_hex(&driver::evaluate_by_statement(&s).flat().unwrap().to_bytes())
}

/* The operators of `--ops`, by their numbers. */
fn asked(args: &mut Vec<String>) -> Vec<u32> {
    take_opt(args, "--ops").map_or(vec![], |s| s.split(',').map(|n| n.parse().unwrap()).collect())
}

/* The records of COUNT seeds from SEED on; `make` checks that they are legal. */
fn generate(args: &[String], out: &mut dyn Write, make: impl Fn(u64) -> Vec<u8>) {
    let seed: u64 = args[0].parse().unwrap();
    let n: u64 = args[1].parse().unwrap();
    for i in 0..n {
        writeln!(out, "{}", record::to_hex(&make(seed.wrapping_add(i)))).unwrap();
    }
}

fn made_source(seed: u64, kind: &str, asked: &[u32]) -> Vec<u8> {
    let b = gen::source(seed, kind, asked).to_bytes();
    Source::parse(&b).unwrap_or_else(|e| panic!("generated record {seed} is refused {e}"));
    b
}

fn made_flat(seed: u64, asked: &[u32]) -> Vec<u8> {
    let f = gen::flat(seed, asked);
    f.check_lent().unwrap_or_else(|e| panic!("generated record {seed} is refused {e}"));
    f.to_bytes()
}

fn batch(mut args: Vec<String>) {
    let timeout = take_opt(&mut args, "--timeout").map_or(20, |s| s.parse().unwrap());
    let jobs = take_opt(&mut args, "--jobs").map_or(2, |s| s.parse().unwrap());
    let flags: Vec<String> = args.iter().filter(|a| a.starts_with("--")).cloned().collect();
    let mode = args.remove(0);
    let mut i = BufReader::new(input(&args));
    run::batch(&mode, &flags, std::time::Duration::from_secs(timeout), jobs, &mut i);
}

/* A record read and numbered so many times: the next id. For times. */
fn repeat(args: &[String]) -> u32 {
    let record = &hex_lines(&args[..1])[0];
    let times: u32 = args[1].parse().unwrap();
    (0..times).fold(0, |_, _| driver::next_id(&Source::parse(record).unwrap()))
}

/* Result lines of batch src, or flat records: compares the Rust's classify_defs
 * on them with document 01's sentence on counted definitions. */
fn check_flats(args: &[String], out: &mut dyn Write) {
    let (mut n, mut diff, mut twice, mut before) = (0, 0, 0, 0);
    for l in BufReader::new(input(args)).lines() {
        let l = l.unwrap();
        let h = l.split(' ').find_map(|w| w.strip_prefix("flat=")).unwrap_or(&l);
        let f = match record::from_hex(h).and_then(|b| Flat::parse_any(&b)) {
            Some(f) => f,
            None => continue,
        };
        n += 1;
        if let Some(d) = driver::classify_differs(&f) {
            diff += 1;
            writeln!(out, "record {n}: {d}").unwrap();
        }
        let (t, b) = driver::order_facts(&f);
        twice += t as u32;
        before += b as u32;
        if b {
            writeln!(out, "record {n}: used before defined").unwrap();
        }
    }
    writeln!(out, "flat records {n}: classify differs {diff}, an id defined twice {twice}, used before defined {before}")
        .unwrap();
}

fn source_text(args: &[String]) -> Source {
    text::assemble(&String::from_utf8(bytes(args)).unwrap())
}

fn command(cmd: &str, mut args: Vec<String>, out: &mut dyn Write) {
    let source = |b: &[u8]| Source::parse(b).unwrap();
    match cmd {
        "src" | "flat" => writeln!(out, "{}", run::line(cmd, &bytes(&args))).unwrap(),
        "equalities" => write!(out, "{}", equalities(&bytes(&args))).unwrap(),
        "worker" => run::worker(&args[0], &args[1..]),
        "batch" => batch(args),
        "numbers" => each_record(&args, out, numbers),
        "evaluate" => each_record(&args, out, evaluate),
        "repeat" => writeln!(out, "{}", repeat(&args)).unwrap(),
        "gen-src" => {
            let ops = asked(&mut args);
            let kind = args.get(2).map_or("mixed", |s| s.as_str());
            generate(&args, out, |seed| made_source(seed, kind, &ops))
        }
        "gen-flat" => {
            let ops = asked(&mut args);
            generate(&args, out, |seed| made_flat(seed, &ops))
        }
        "asm" => writeln!(out, "{}", record::to_hex(&source_text(&args).to_bytes())).unwrap(),
        "dis" => each_record(&args, out, |b| text::disassemble(&source(b))),
        "explain" => write!(out, "{}", explain(&source_text(&args))).unwrap(),
        "explain-hex" => each_record(&args, out, |b| explain(&source(b))),
        "show-flat" => each_record(&args, out, |b| text::show_flat(&Flat::parse_any(b).unwrap())),
        "show-cons" => each_record(&args, out, |b| text::show_cons(&Cons::parse(b).unwrap())),
        "check-flats" => check_flats(&args, out),
        "case-f" => write!(out, "{}", equalities(&case_f().to_bytes())).unwrap(),
        "unhex" => hex_lines(&args).iter().for_each(|b| out.write_all(b).unwrap()),
        _ => println!("{USAGE}"),
    }
}

fn run_main() {
    let mut args: Vec<String> = std::env::args().skip(1).collect();
    if args.is_empty() {
        println!("{USAGE}");
        return;
    }
    let cmd = args.remove(0);
    let mut out = std::io::BufWriter::new(std::io::stdout());
    command(&cmd, args, &mut out);
    out.flush().unwrap();
}

fn main() {
    // Everything runs on one thread with a stack of 1 GiB.
    let h = std::thread::Builder::new().stack_size(1 << 30).spawn(run_main).unwrap();
    if h.join().is_err() {
        std::process::exit(101);
    }
}

//! Running one record with panics caught, and the batch runner.
use crate::error::take_discarded;
use crate::record::{from_hex, to_hex, Flat, Source};
use crate::transform::driver;
use std::cell::RefCell;
use std::io::{BufRead, BufReader, Write};
use std::panic::{catch_unwind, AssertUnwindSafe};
use std::process::{Child, Command, Stdio};
use std::sync::mpsc;
use std::time::Duration;

thread_local! {
    static LAST: RefCell<String> = const { RefCell::new(String::new()) };
}

/* No panic text on stderr; keep the message for the result line. */
pub fn silence_panics() {
    std::panic::set_hook(Box::new(|info| {
        let p = info.payload();
        let m = if let Some(s) = p.downcast_ref::<&str>() {
            s.to_string()
        } else if let Some(s) = p.downcast_ref::<String>() {
            s.clone()
        } else {
            "?".to_string()
        };
        LAST.with(|l| {
            // The first panic counts, should another follow while unwinding.
            if l.borrow().is_empty() {
                *l.borrow_mut() = m;
            }
        });
    }));
}

fn caught<T>(f: impl FnOnce() -> T) -> Result<T, String> {
    LAST.with(|l| l.borrow_mut().clear());
    catch_unwind(AssertUnwindSafe(f)).map_err(|_| LAST.with(|l| std::mem::take(&mut *l.borrow_mut())))
}

/* The refusal number of document 01 that fits a panic message in evaluation. */
pub fn number_of(msg: &str) -> u32 {
    let name = msg.rsplit("value: ").next().unwrap_or("");
    match name {
        "ApplicationError" => 10,
        "VariableExponentError" => 11,
        "StaticMatchError" => 12,
        "MatchError" => 13,
        "NonConstantIterArgumentError" => 14,
        "NonListArgumentsInFoldError" => 15,
        _ if msg.starts_with("stopped at refusal ") => msg[19..].parse().unwrap(),
        _ if msg.starts_with("specified iteration count") => 14,
        _ if msg.starts_with("field: no value") => 17,
        _ => 16,
    }
}

fn clean(msg: &str) -> String {
    let mut m: String = msg.chars().map(|c| if c.is_control() { ' ' } else { c }).collect();
    // Addresses (the Display of an intrinsic) differ from run to run.
    let mut at = 0;
    while let Some(i) = m[at..].find("0x") {
        at += i + 2;
        let n = m[at..].chars().take_while(|c| c.is_ascii_hexdigit()).count();
        m.replace_range(at..at + n, "");
    }
    if m.chars().count() > 200 {
        m.chars().take(200).collect::<String>() + "..."
    } else {
        m
    }
}

fn over(f: &Flat) -> String {
    let mut o = Vec::new();
    if f.provers.len() > 4096 || f.defs.len() > 4096 || f.eqs.len() > 4096 || f.nodes.len() > 16384 {
        o.push("31");
    }
    if f.next > 65536 {
        o.push("32");
    }
    if o.is_empty() {
        String::new()
    } else {
        format!(" over={}", o.join(","))
    }
}

/* One source record through everything; the result line. */
pub fn src_line(bytes: &[u8], stage: &mut dyn FnMut(&str)) -> String {
    stage("read");
    let s = match Source::parse(bytes) {
        Ok(s) => s,
        Err(n) => return format!("refused {n}"),
    };
    take_discarded();
    stage("evaluate");
    let ev = caught(|| driver::evaluate_whole(&s));
    let tw = twin_counts();
    let ev = match ev {
        Ok(ev) => ev,
        Err(m) => {
            let d = discards();
            return format!("panic stage=evaluate num={}{d}{tw} msg={}", number_of(&m), clean(&m));
        }
    };
    let d = discards() + &tw;
    stage("places");
    // A second run, which the counters and the discarded errors leave out.
    let ev = caught(|| ev.placed(&s)).unwrap_or_else(|m| differs(&m));
    take_discarded();
    let (flat, o) = match ev.flat() {
        Some(f) => (to_hex(&f.to_bytes()), over(&f)),
        None => ("nonflat".to_string(), String::new()),
    };
    stage("passes");
    match caught(|| ev.passes()) {
        Ok(c) => format!("ok flat={flat} cons={}{d}{o}", to_hex(&c.to_bytes())),
        Err(m) if m.starts_with(driver::DIFFERS) => differs(&m),
        Err(m) => format!("panic stage=passes flat={flat}{d}{o} msg={}", clean(&m)),
    }
}

/* Called part by part the Rust gave another answer: no answer is to be had, of
 * this record or of any other. */
fn differs(msg: &str) -> ! {
    println!("R {DIFFERENT}{}", clean(msg));
    std::process::exit(1)
}
const DIFFERENT: &str = "differs ";

#[cfg(feature = "twin")]
fn twin_counts() -> String {
    let c = crate::twin::counts();
    format!(
        " first={} made={} made-at-first={} expansions={} depth={} look={}",
        c.first, c.made, c.made_at_first, c.expansions, c.max_depth, c.max_look
    )
}
#[cfg(not(feature = "twin"))]
fn twin_counts() -> String {
    String::new()
}

fn discards() -> String {
    let d = take_discarded();
    if d.is_empty() {
        String::new()
    } else {
        format!(" discarded={}:{}:{}", d.len(), d[0], number_of(d[0]))
    }
}

/* One flat record through the passes. */
pub fn flat_line(bytes: &[u8], any: bool, stage: &mut dyn FnMut(&str)) -> String {
    stage("read");
    let f = if any {
        // Made by evaluation: no rules of lent records, no limits.
        match Flat::parse_any(bytes) {
            Some(f) => f,
            None => return "bad-record".to_string(),
        }
    } else {
        match Flat::parse(bytes).and_then(|f| f.check_lent().map(|_| f)) {
            Ok(f) => f,
            Err(n) => return format!("refused {n}"),
        }
    };
    stage("passes");
    match caught(|| driver::run_flat(&f)) {
        Ok(c) => format!("ok cons={}", to_hex(&c.to_bytes())),
        Err(m) if m.starts_with(driver::DIFFERS) => differs(&m),
        Err(m) => format!("panic stage=passes msg={}", clean(&m)),
    }
}

/* One record alone. */
pub fn line(mode: &str, bytes: &[u8]) -> String {
    silence_panics();
    if mode == "flat" {
        flat_line(bytes, false, &mut |_| ())
    } else {
        src_line(bytes, &mut |_| ())
    }
}

/* Child side of the batch runner: hex lines in, "S stage" and "R result" out. */
pub fn worker(mode: &str, flags: &[String]) {
    silence_panics();
    let stop = flags.iter().any(|f| f == "--stop");
    #[cfg(feature = "twin")]
    if stop {
        crate::twin::stop_at_first();
    }
    #[cfg(not(feature = "twin"))]
    let _ = stop;
    let stdin = std::io::stdin();
    let mut out = std::io::stdout();
    for line in stdin.lock().lines() {
        let line = line.unwrap();
        let mut o2 = std::io::stdout();
        let mut stage = |s: &str| {
            let _ = writeln!(o2, "S {s}");
            let _ = o2.flush();
        };
        let r = match from_hex(&line) {
            None => "bad-hex".to_string(),
            Some(b) if mode == "flat" => flat_line(&b, false, &mut stage),
            Some(b) if mode == "flat-any" => flat_line(&b, true, &mut stage),
            Some(b) => src_line(&b, &mut stage),
        };
        writeln!(out, "R {r}").unwrap();
        out.flush().unwrap();
    }
}

struct Kid {
    child: Child,
    rx: mpsc::Receiver<String>,
}

fn spawn(mode: &str, flags: &[String]) -> Kid {
    let exe = std::env::current_exe().unwrap();
    // 3 GiB of address space (the stack alone has 1 GiB): a run that eats more
    // ends as a crash of that worker only.
    let mut child = Command::new("sh")
        .arg("-c")
        .arg("ulimit -v 3145728; ulimit -c 0; exec \"$0\" \"$@\"")
        .arg(exe)
        .arg("worker")
        .arg(mode)
        .args(flags)
        .stdin(Stdio::piped())
        .stdout(Stdio::piped())
        .stderr(Stdio::null())
        .spawn()
        .unwrap();
    let so = child.stdout.take().unwrap();
    let (tx, rx) = mpsc::channel();
    std::thread::spawn(move || {
        for l in BufReader::new(so).lines() {
            match l {
                Ok(l) => {
                    if tx.send(l).is_err() {
                        break;
                    }
                }
                Err(_) => break,
            }
        }
    });
    Kid { child, rx }
}

fn end(mut k: Kid) {
    let _ = k.child.kill();
    let _ = k.child.wait();
}

fn batch_part(mode: &str, flags: &[String], timeout: Duration, lines: &[(usize, String)]) -> Vec<(usize, String)> {
    let mut kid = spawn(mode, flags);
    let mut out = Vec::new();
    for (i, line) in lines {
        let ok = {
            let si = kid.child.stdin.as_mut().unwrap();
            writeln!(si, "{line}").and_then(|_| si.flush()).is_ok()
        };
        let mut stage = "start".to_string();
        let mut res = None;
        if ok {
            let limit = std::time::Instant::now() + timeout;
            loop {
                let left = limit.saturating_duration_since(std::time::Instant::now());
                match kid.rx.recv_timeout(left) {
                    Ok(l) if l.starts_with("S ") => stage = l[2..].to_string(),
                    Ok(l) if l[2..].starts_with(DIFFERENT) => {
                        eprintln!("{} on {line}", &l[2..]);
                        std::process::exit(1)
                    }
                    Ok(l) => {
                        res = Some(l[2..].to_string());
                        break;
                    }
                    Err(mpsc::RecvTimeoutError::Timeout) => {
                        res = Some(format!("timeout stage={stage}"));
                        end(kid);
                        kid = spawn(mode, flags);
                        break;
                    }
                    Err(mpsc::RecvTimeoutError::Disconnected) => break,
                }
            }
        }
        let res = res.unwrap_or_else(|| {
            format!("crash stage={stage}")
        });
        if res.starts_with("crash") {
            end(kid);
            kid = spawn(mode, flags);
        }
        out.push((*i, res));
    }
    drop(kid.child.stdin.take());
    let _ = kid.child.wait();
    out
}

pub fn batch(mode: &str, flags: &[String], timeout: Duration, jobs: usize, input: &mut dyn BufRead) {
    let mut parts: Vec<Vec<(usize, String)>> = vec![Vec::new(); jobs];
    let mut n = 0;
    for l in input.lines() {
        let l = l.unwrap();
        let l = l.trim();
        if l.is_empty() || l.starts_with('#') {
            continue;
        }
        parts[n % jobs].push((n, l.to_string()));
        n += 1;
    }
    let mode = mode.to_string();
    let hs: Vec<_> = parts
        .into_iter()
        .map(|p| {
            let (mode, flags) = (mode.clone(), flags.to_vec());
            std::thread::spawn(move || batch_part(&mode, &flags, timeout, &p))
        })
        .collect();
    let mut all: Vec<(usize, String)> = Vec::new();
    for h in hs {
        all.extend(h.join().unwrap());
    }
    all.sort();
    let out = std::io::stdout();
    let mut out = std::io::BufWriter::new(out.lock());
    for (_, r) in all {
        writeln!(out, "{r}").unwrap();
    }
}

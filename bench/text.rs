//! Times the rules on text next to Rust's standard library, on the same inputs in the same run.
//! `bin/bench` builds and runs it. The original checks a name by `str::from_utf8`, then by `chars`
//! (control characters and white space).

use std::hint::black_box;
use std::time::Instant;

extern "C" {
    fn bench_is_utf8(bytes: *const u8, len: usize) -> bool;
    fn bench_is_name(bytes: *const u8, len: usize) -> bool;
    fn bench_is_snapshot_id(bytes: *const u8, len: usize) -> bool;
}

const CALLS: u32 = 2_000;
const BATCHES: usize = 101;

/// What is timed: the port's function, and what the original does with the same bytes.
struct Rule {
    name: &'static str,
    port: fn(&[u8]) -> bool,
    rust: fn(&[u8]) -> bool,
}

const RULES: [Rule; 3] = [
    Rule {
        name: "is_utf8",
        port: port_utf8,
        rust: rust_utf8,
    },
    Rule {
        name: "is_name",
        port: port_name,
        rust: rust_name,
    },
    Rule {
        name: "is_snapshot_id",
        port: port_snapshot_id,
        rust: rust_snapshot_id,
    },
];

// The exported functions ask nothing of their caller but a slice, passed as its two parts.
fn port_utf8(bytes: &[u8]) -> bool {
    unsafe { bench_is_utf8(bytes.as_ptr(), bytes.len()) }
}

fn port_name(bytes: &[u8]) -> bool {
    unsafe { bench_is_name(bytes.as_ptr(), bytes.len()) }
}

fn port_snapshot_id(bytes: &[u8]) -> bool {
    unsafe { bench_is_snapshot_id(bytes.as_ptr(), bytes.len()) }
}

#[inline(never)]
fn rust_utf8(bytes: &[u8]) -> bool {
    std::str::from_utf8(bytes).is_ok()
}

#[inline(never)]
fn rust_name(bytes: &[u8]) -> bool {
    std::str::from_utf8(bytes).is_ok_and(|name| {
        name.len() <= 2048
            && name.starts_with("spiffe://")
            && name.len() > 9
            && !name.chars().any(|c| c.is_control() || c.is_whitespace())
    })
}

#[inline(never)]
fn rust_snapshot_id(bytes: &[u8]) -> bool {
    std::str::from_utf8(bytes)
        .is_ok_and(|id| id.len() <= 256 && !id.is_empty() && !id.chars().any(char::is_control))
}

fn main() {
    println!(
        "{:<16}{:<28}{:>10}{:>10}{:>8}",
        "rule", "input", "port ns", "Rust ns", "ratio"
    );
    for rule in &RULES {
        for (label, bytes) in inputs(rule.name) {
            assert_eq!((rule.port)(&bytes), (rule.rust)(&bytes));
            let (port, rust) = measured(rule, &bytes);
            println!(
                "{:<16}{label:<28}{port:>10.1}{rust:>10.1}{:>8.2}",
                rule.name,
                port / rust
            );
        }
    }
}

/// The median batch of each, taken in turn, so that both meet the same conditions.
fn measured(rule: &Rule, bytes: &[u8]) -> (f64, f64) {
    let mut port = Vec::new();
    let mut rust = Vec::new();
    for _ in 0..BATCHES {
        port.push(batch(rule.port, bytes));
        rust.push(batch(rule.rust, bytes));
    }
    (median(port), median(rust))
}

fn batch(call: fn(&[u8]) -> bool, bytes: &[u8]) -> f64 {
    let start = Instant::now();
    for _ in 0..CALLS {
        black_box(call(black_box(bytes)));
    }
    start.elapsed().as_nanos() as f64 / f64::from(CALLS)
}

fn median(mut times: Vec<f64>) -> f64 {
    times.sort_by(f64::total_cmp);
    times[times.len() / 2]
}

/// Text that every rule accepts, of the sizes that the rule allows.
fn inputs(rule: &str) -> Vec<(String, Vec<u8>)> {
    let sizes: &[usize] = if rule == "is_snapshot_id" {
        &[40, 256]
    } else {
        &[40, 2000]
    };
    let largest = sizes[sizes.len() - 1];
    let mut inputs: Vec<_> = sizes
        .iter()
        .map(|&size| (format!("{size} ASCII bytes"), filled(size, &["voter-07."])))
        .collect();
    inputs.push((
        format!("{largest} bytes, mixed scripts"),
        filled(largest, &MIXED),
    ));
    inputs.push((
        format!("{largest} bytes, one script"),
        filled(largest, &["日本語"]),
    ));
    inputs
}

const MIXED: [&str; 10] = [
    "порт",
    "κόσμος",
    "日本語",
    "한국어",
    "שלום",
    "नमस्ते",
    "ไทย",
    "voter",
    "😀",
    "é—x",
];

/// `spiffe://`, then the parts in an order that no branch predictor learns, then ASCII up to the
/// size.
fn filled(size: usize, parts: &[&str]) -> Vec<u8> {
    let mut text = String::from("spiffe://");
    let mut state: u32 = 7;
    loop {
        state = state.wrapping_mul(1_664_525).wrapping_add(1_013_904_223);
        let part = parts[(state >> 16) as usize % parts.len()];
        if text.len() + part.len() > size {
            break;
        }
        text.push_str(part);
    }
    while text.len() < size {
        text.push('x');
    }
    text.into_bytes()
}

//! The text test beside Rust's `from_utf8`, on 1 MiB of one-, two-, three- and four-byte text. See docs/speed.md.
use std::hint::black_box;
use std::time::Instant;

unsafe extern "C" {
    fn tree_well_formed(text: *const u8, len: usize) -> u8;
}

fn ours(text: &[u8]) -> bool {
    // a pointer and its length are what a byte slice is passed as
    unsafe { tree_well_formed(text.as_ptr(), text.len()) == 0 }
}

fn rust(text: &[u8]) -> bool {
    std::str::from_utf8(text).is_ok()
}

/// The best of `rounds` runs over the text, in microseconds.
fn best(rounds: u32, text: &[u8], test: fn(&[u8]) -> bool) -> f64 {
    let mut least = f64::MAX;
    for _ in 0..rounds {
        let start = Instant::now();
        assert!(test(black_box(text)));
        least = least.min(start.elapsed().as_secs_f64());
    }
    least * 1e6
}

fn repeated(part: &str) -> Vec<u8> {
    let mut text = part.repeat((1 << 20) / part.len()).into_bytes();
    text.resize(1 << 20, b' ');
    text
}

fn main() {
    let log = "2026-11-17 06:40:10 north brine -9.25 C\n";
    let mixed = "2026-11-17 06:40:10 Süd brine −9.25 °C\n";
    let texts = [("ASCII", repeated("a")), ("log lines, ASCII", repeated(log)), ("log lines, mixed", repeated(mixed)), ("two-byte", repeated("é")), ("three-byte", repeated("你")), ("four-byte", repeated("💖"))];
    println!("| 1 MiB of | ours, µs | from_utf8, µs | ratio |");
    println!("|---|---|---|---|");
    for (name, text) in &texts {
        let (a, b) = (best(300, text, ours), best(300, text, rust));
        println!("| {name} | {a:.1} | {b:.1} | {:.2} |", a / b);
    }
}

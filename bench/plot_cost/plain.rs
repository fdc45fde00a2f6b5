// The loop of plot_cost in plain Rust: AtomicU64::fetch_min on each word in turn.
use std::hint::black_box;
use std::sync::atomic::{AtomicU64, Ordering::SeqCst};
use std::time::Instant;

#[inline(never)]
fn plot_all(words: &[AtomicU64], value: u64) {
    for word in words {
        word.fetch_min(value, SeqCst);
    }
}

fn time(name: &str, pixels: u64, rounds: u64, lowers: u64) {
    let words: Vec<AtomicU64> = (0..pixels).map(|_| AtomicU64::new(u64::MAX)).collect();
    let start = Instant::now();
    for round in 0..rounds {
        plot_all(black_box(&words), u64::MAX / 2 - round * lowers);
    }
    let picoseconds = start.elapsed().as_nanos() as u64 * 1000 / (pixels * rounds);
    println!("{name} {picoseconds}");
}

fn main() {
    time("small-lowers", 1024, 20_000, 1);
    time("small-keeps", 1024, 20_000, 0);
    time("large-lowers", 1 << 20, 20, 1);
    time("large-keeps", 1 << 20, 20, 0);
}

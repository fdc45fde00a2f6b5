#!/usr/bin/env bash
# What a plot costs, in picoseconds, beside AtomicU64::fetch_min in plain Rust: on a frame of 1,024
# pixels (in the cache) and of 1,048,576, where each plot lowers its word ("lowers") and where the
# word is already as low ("keeps"): the least of PASSES runs (15). Needs rustc, and builds a program
# in a folder of its own.
set -eu
here=$(cd "$(dirname "$0")" && pwd)
root=$(cd "$here/../.." && pwd)
work=$(mktemp -d)
trap 'rm -rf "$work"' EXIT
mkdir -p "$work/crates/plot_cost/src"
cp -r "$root/crates/view_base" "$root/crates/min_frame" "$work/crates/"
rm -rf "$work"/crates/*/out
printf '%s\n' 'view_base:' 'min_frame: view_base atomic_table' 'plot_cost: min_frame view_base' > "$work/crates.txt"
cat > "$work/crates/plot_cost/src/main.rt" <<'P'
//! Times the plots of one thread.
#![tactic(auto)]

ghost use Rattle.std.specs.Prelude.{◌≡◌, ◌≤◌, ◌+◌};

use min_frame::{Frame, Seat};
use std::alloc::Global;
use std::io;
use std::rt::Clock;
use std::time::Instant;

fn plot_all(frame: &Frame, seat: &mut Seat, pixels: u32, value: u64)
    requires frame { seat.old.frame ≡ frame.now.name }
    requires pixels { pixels ≤ frame.now.pixels }
    ensures { seat.new.frame ≡ seat.old.frame }
{
    for x in 0..pixels {
        frame.plot(seat, x, value);
    }
}

fn rounds(frame: &Frame, seat: &mut Seat, pixels: u32, count: u64, lowers: u64)
    requires frame { seat.old.frame ≡ frame.now.name }
    requires pixels { pixels ≤ frame.now.pixels }
{
    for round in 0..count {
        plot_all(frame, seat, pixels, (u64::MAX / 2).wrapping_sub(round.wrapping_mul(lowers)));
    }
}

fn time<R: Clock + Print>(rt: &R, alloc: Global, name: &str, pixels: u32, count: u64, lowers: u64) -> io::Result<()>
    requires { (1 ≤ pixels) × (pixels ≤ 1048576) }
{
    let Ok((frame, mut root)) = Frame::new(alloc, pixels, 1, 1) else {
        return println!(rt; "out of memory");
    };
    let start = Instant::now(rt)?;
    rounds(&frame, &mut root, pixels, count, lowers);
    let nanoseconds = start.elapsed(rt)?.as_nanos();
    let picoseconds = nanoseconds.wrapping_mul(1000).checked_div(u128::from(pixels).wrapping_mul(u128::from(count)));
    println!(rt; "{name} {}", picoseconds.unwrap_or(0))
}

fn main(rt: HostRuntime) -> io::Result<()> {
    time(&rt, rt.alloc(), "small-lowers", 1024, 20_000, 1)?;
    time(&rt, rt.alloc(), "small-keeps", 1024, 20_000, 0)?;
    time(&rt, rt.alloc(), "large-lowers", 1 << 20, 20, 1)?;
    time(&rt, rt.alloc(), "large-keeps", 1 << 20, 20, 0)
}
P
mkdir -p "$work/crates/plot_cost/proofs/plot_all" "$work/crates/plot_cost/proofs/rounds"
cat > "$work/crates/plot_cost/proofs/plot_all/Invariants.antt" <<'P'
use Rattle.std.proofs.Common.{◌≡◌}
use Rattle.plot_cost.proofs.plot_all.Given as goal

abbrev pub invariant-loop-x : goal.invariant-loop-x
invariant-loop-x l = l.seat.frame ≡ l.fn.seat.frame
P
cat > "$work/crates/plot_cost/proofs/rounds/Invariants.antt" <<'P'
use Rattle.std.proofs.Common.{◌≡◌}
use Rattle.plot_cost.proofs.rounds.Given as goal

abbrev pub invariant-loop-round : goal.invariant-loop-round
invariant-loop-round l = l.seat.frame ≡ l.fn.seat.frame
P
(cd "$work/crates/plot_cost" && rt run --jobs 2 > "$work/log" 2>&1) || { tail -40 "$work/log"; exit 1; }
rustc -O -o "$work/plain" "$here/plain.rs"
[ -n "${DUMP:-}" ] && objdump -d --no-show-raw-insn "$work/crates/plot_cost/out/plot_cost" > "$DUMP"
for pass in $(seq 1 "${PASSES:-15}"); do
    "$work/crates/plot_cost/out/plot_cost" | sed "s/^/frame /"
    "$work/plain" | sed "s/^/plain /"
done | awk '
    { key = $1 " " $2; if (!(key in least) || $3 < least[key]) least[key] = $3; seen[$2] = 1 }
    END {
        for (name in seen) {
            frame = least["frame " name]; plain = least["plain " name]
            printf "%-14s frame %6d ps, plain %6d ps, ratio %.2f\n", name, frame, plain, frame / plain
        }
    }' | sort

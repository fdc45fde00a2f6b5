#!/usr/bin/env bash
# How many small edits a second one caller publishes through a shared store, and four callers at
# once, and how long one edit takes: ./run.sh [RECORDS [EDITS [RUNS]]]. A survey of 8,388,608 records
# in rows of 4096, which stand in the file row by row (scan) or with neighbours far apart (scattered).
# A small edit changes the class of one record, 20 edits a caller, an even number, and the least time
# of 3 runs. The others change a box of 1000 records, and half of the survey: the least and the middle
# time of all edits of their kind. Builds a program in a folder of its own.
set -eu
here=$(cd "$(dirname "$0")" && pwd)
root=$(cd "$here/../.." && pwd)
records=${1:-8388608}
edits=${2:-20}
runs=${3:-3}
work=$(mktemp -d)
trap 'rm -rf "$work"' EXIT
mkdir -p "$work/crates/shared_edits/src"
needs() { # the crates of the repository that a crate stands on, and itself
    for name in $(sed -n "s/^$1[^:]*://p" "$root/crates.txt"); do
        [ -d "$root/crates/$name" ] && needs "$name"
    done
    echo "$1"
}
for name in $(needs version_store | sort -u); do
    cp -r "$root/crates/$name" "$work/crates/"
    grep -E "^$name( |:)" "$root/crates.txt" >> "$work/crates.txt"
done
cp "$root/HANDLES" "$work/"
echo 'shared_edits may_wait=10: view_base view_ends view_meaning las_survey grid_blocks edit_ops version_store' >> "$work/crates.txt"
cat > "$work/crates/shared_edits/src/main.rt" <<P
//! Times the edits of one caller, and of four at once.
#![tactic(auto)]

ghost use Rattle.std.specs.Prelude.{◌≡◌, true, IfSome, None};

use edit_ops::{Edit, read_edit};
use grid_blocks::build;
use las_survey::{Survey, load};
use std::alloc::Global;
use std::io;
use std::rt::Clock;
use std::sync::{Arc, Wait};
use std::thread::{Threads, join_mut};
use std::time::Instant;
use version_store::{Pass, Shared};
use view_base::{Bytes, OutOfMemory};
use view_ends::StillSource;

const RECORDS: u32 = $records;
const EDITS: u32 = $edits;
P
cat >> "$work/crates/shared_edits/src/main.rt" <<'P'

fn append_header(bytes: &mut Bytes) -> Result<(), OutOfMemory> {
    bytes.append(b"LASF")?;
    bytes.append(&[0; 20])?;
    bytes.append(&[1, 4])?;
    bytes.append(&[0; 68])?;
    bytes.append(&375u16.to_le_bytes())?;
    bytes.append(&375u32.to_le_bytes())?;
    bytes.append(&[0; 5])?;
    bytes.append(&20u16.to_le_bytes())?;
    bytes.append(&[0; 140])?;
    bytes.append(&u64::from(RECORDS).to_le_bytes())?;
    bytes.append(&[0; 120])
}

// Record i is at place i * step of the survey, modulo the number of records.
fn append_records(bytes: &mut Bytes, step: u32) -> Result<(), OutOfMemory> {
    for i in 0..RECORDS {
        let at = (u64::from(i) * u64::from(step) % u64::from(RECORDS)) as u32;
        bytes.append(&(at % 4096).to_le_bytes())?;
        bytes.append(&(at / 4096).to_le_bytes())?;
        bytes.append(&[0, 0, 0, 0, 0, 0, 0, 2, 0, 0, 0, 0])?;
    }
    Ok(())
}

fn survey(alloc: Global, step: u32) -> Option<Survey> {
    let mut bytes = Bytes::new(alloc);
    append_header(&mut bytes).ok()?;
    append_records(&mut bytes, step).ok()?;
    load(alloc, &mut StillSource::new(bytes)).ok()
}

fn publish_all<R: Wait>(rt: &R, shared: &Shared, pass: &mut Pass, low: &Edit, high: &Edit)
    requires gate { pass.old.gate ≡ shared.now.name }
    requires outside { pass.old.turn ≡ None }
    ensures { pass.new ≡ record pass.old { seen = pass.new.seen; mine = pass.new.mine } }
{
    if low.to > 31 || high.to > 31 {
        return;
    }
    for _ in 0..EDITS / 2 {
        let _ = shared.publish(rt, pass, low);
        let _ = shared.publish(rt, pass, high);
    }
}

fn publish_two<R: Threads + Wait + Sync>(rt: &R, shared: &Shared, one: &mut Pass, two: &mut Pass, low: &Edit, high: &Edit)
    requires gate { (one.old.gate ≡ shared.now.name) × (two.old.gate ≡ shared.now.name) }
    requires outside { (one.old.turn ≡ None) × (two.old.turn ≡ None) }
    ensures one { one.new ≡ record one.old { seen = one.new.seen; mine = one.new.mine } }
    ensures two { two.new ≡ record two.old { seen = two.new.seen; mine = two.new.mine } }
{
    join_mut(
        rt,
        &mut || publish_all(rt, shared, one, low, high),
        &mut || publish_all(rt, shared, two, low, high),
    );
}

fn publish_four<R: Threads + Wait + Sync>(rt: &R, shared: &Shared, one: &mut Pass, two: &mut Pass, three: &mut Pass, four: &mut Pass, low: &Edit, high: &Edit)
    requires gate { (one.old.gate ≡ shared.now.name) × (two.old.gate ≡ shared.now.name) × (three.old.gate ≡ shared.now.name) × (four.old.gate ≡ shared.now.name) }
    requires outside { (one.old.turn ≡ None) × (two.old.turn ≡ None) × (three.old.turn ≡ None) × (four.old.turn ≡ None) }
    ensures one { one.new ≡ record one.old { seen = one.new.seen; mine = one.new.mine } }
    ensures two { two.new ≡ record two.old { seen = two.new.seen; mine = two.new.mine } }
    ensures three { three.new ≡ record three.old { seen = three.new.seen; mine = three.new.mine } }
    ensures four { four.new ≡ record four.old { seen = four.new.seen; mine = four.new.mine } }
{
    join_mut(
        rt,
        &mut ||
            requires { (one.now.gate ≡ shared.now.name) × (two.now.gate ≡ shared.now.name) × (one.now.turn ≡ None) × (two.now.turn ≡ None) }
        { publish_two(rt, shared, one, two, low, high) },
        &mut ||
            requires { (three.now.gate ≡ shared.now.name) × (four.now.gate ≡ shared.now.name) × (three.now.turn ≡ None) × (four.now.turn ≡ None) }
        { publish_two(rt, shared, three, four, low, high) },
    );
}

fn time_one<R: Wait + Clock + Print>(rt: &R, shared: &Shared, pass: &mut Pass, low: &Edit, high: &Edit) -> io::Result<()>
    requires gate { pass.old.gate ≡ shared.now.name }
    requires outside { pass.old.turn ≡ None }
    ensures { pass.new ≡ record pass.old { seen = pass.new.seen; mine = pass.new.mine } }
{
    let start = Instant::now(rt)?;
    publish_all(rt, shared, pass, low, high);
    let micros = start.elapsed(rt)?.as_micros();
    println!(rt; "one {micros}")
}

fn time_four<R: Threads + Wait + Clock + Print + Sync>(rt: &R, shared: &Shared, root: &mut Pass, low: &Edit, high: &Edit) -> io::Result<()>
    requires gate { root.old.gate ≡ shared.now.name }
    requires outside { root.old.turn ≡ None }
    requires root { root.old.root ≡ true }
    requires given { root.old.given ≡ 0 }
{
    let mut one = shared.split(root);
    let mut two = shared.split(root);
    let mut three = shared.split(root);
    let mut four = shared.split(root);
    let start = Instant::now(rt)?;
    publish_four(rt, shared, &mut one, &mut two, &mut three, &mut four, low, high);
    let micros = start.elapsed(rt)?.as_micros();
    println!(rt; "four {micros}")
}

fn time_publish<R: Wait + Clock + Print>(rt: &R, shared: &Shared, pass: &mut Pass, name: &str, edit: &Edit) -> io::Result<()>
    requires gate { pass.old.gate ≡ shared.now.name }
    requires outside { pass.old.turn ≡ None }
    ensures { pass.new ≡ record pass.old { seen = pass.new.seen; mine = pass.new.mine } }
{
    if edit.to > 31 {
        return Ok(());
    }
    let start = Instant::now(rt)?;
    let _ = shared.publish(rt, pass, edit);
    let micros = start.elapsed(rt)?.as_micros();
    println!(rt; "{name} {micros}")
}

fn time_each<R: Wait + Clock + Print>(rt: &R, shared: &Shared, pass: &mut Pass, name: &str, low: &Edit, high: &Edit) -> io::Result<()>
    requires gate { pass.old.gate ≡ shared.now.name }
    requires outside { pass.old.turn ≡ None }
    ensures { pass.new ≡ record pass.old { seen = pass.new.seen; mine = pass.new.mine } }
{
    for _ in 0..EDITS / 2 {
        time_publish(rt, shared, pass, name, low)?;
        time_publish(rt, shared, pass, name, high)?;
    }
    Ok(())
}

fn edit(line: &[u8]) -> Option<Edit> {
    read_edit(line, 0).ok()
}

fn time_boxes<R: Wait + Clock + Print>(rt: &R, shared: &Shared, pass: &mut Pass, small: &str, large: &str) -> io::Result<()>
    requires gate { pass.old.gate ≡ shared.now.name }
    requires outside { pass.old.turn ≡ None }
    ensures { pass.new ≡ record pass.old { seen = pass.new.seen; mine = pass.new.mine } }
{
    let Some(low) = edit(b"edit 1000 1000 0 1039 1024 0 all 6") else {
        return println!(rt; "no edit");
    };
    let Some(high) = edit(b"edit 1000 1000 0 1039 1024 0 all 9") else {
        return println!(rt; "no edit");
    };
    time_each(rt, shared, pass, small, &low, &high)?;
    let Some(low) = edit(b"edit 0 0 0 4095 1023 0 all 6") else {
        return println!(rt; "no edit");
    };
    let Some(high) = edit(b"edit 0 0 0 4095 1023 0 all 9") else {
        return println!(rt; "no edit");
    };
    time_each(rt, shared, pass, large, &low, &high)
}

fn share<R: Threads + Sync>(rt: &R, alloc: Global, step: u32) -> Option<(Shared, Pass)>
    ensures gate { IfSome result (λ r. r.1.gate ≡ r.0.name) }
    ensures outside { IfSome result (λ r. r.1.turn ≡ None) }
    ensures root { IfSome result (λ r. r.1.root ≡ true) }
    ensures given { IfSome result (λ r. r.1.given ≡ 0) }
{
    let survey = survey(alloc, step)?;
    let blocks = Arc::new(alloc, build(alloc, rt, 4, &survey).ok()?).ok()?;
    Shared::over(alloc, Arc::new(alloc, survey).ok()?, blocks).ok()
}

fn time_scan<R: Threads + Wait + Clock + Print + Sync>(rt: &R, shared: &Shared, root: &mut Pass) -> io::Result<()>
    requires gate { root.old.gate ≡ shared.now.name }
    requires outside { root.old.turn ≡ None }
    requires root { root.old.root ≡ true }
    requires given { root.old.given ≡ 0 }
{
    let Some(low) = edit(b"edit 5 0 0 5 0 0 all 6") else {
        return println!(rt; "no edit");
    };
    let Some(high) = edit(b"edit 5 0 0 5 0 0 all 9") else {
        return println!(rt; "no edit");
    };
    time_boxes(rt, shared, root, "1000_scan", "half_scan")?;
    time_one(rt, shared, root, &low, &high)?;
    time_four(rt, shared, root, &low, &high)
}

fn main(rt: HostRuntime) -> io::Result<()> {
    let Some((shared, mut root)) = share(&rt, rt.alloc(), 1) else {
        return println!(rt; "no store");
    };
    time_scan(&rt, &shared, &mut root)?;
    let Some((shared, mut root)) = share(&rt, rt.alloc(), 15485863) else {
        return println!(rt; "no store");
    };
    time_boxes(&rt, &shared, &mut root, "1000_scattered", "half_scattered")
}
P
for loop in publish_all time_each; do
    mkdir -p "$work/crates/shared_edits/proofs/$loop"
    cat > "$work/crates/shared_edits/proofs/$loop/Invariants.antt" <<P
use Rattle.std.proofs.Common.{◌≡◌}
use Rattle.shared_edits.proofs.$loop.Given as goal

abbrev pub invariant-loop : goal.invariant-loop
invariant-loop g l = l.pass ≡ record l.fn.pass { seen = l.pass.seen; mine = l.pass.mine }
P
done
cd "$work/crates/shared_edits"
rt run > first.txt 2> log.txt || { cat first.txt log.txt; exit 1; }
program=$(find out -maxdepth 1 -type f -perm -u+x | head -1)
for _ in $(seq "$runs"); do
    "$program"
done | sort -k1,1 -k2,2n | awk -v edits="$edits" '
    { times[$1, ++count[$1]] = $2 }
    END {
        for (name in count) {
            least = times[name, 1]
            if (name == "one" || name == "four") {
                total = (name == "one" ? 1 : 4) * edits
                printf "%s: %d edits in %.3f s, %.1f edits a second\n", name, total, least / 1e6, total * 1e6 / least
            } else {
                printf "%s: least %.3f ms, middle %.3f ms\n", name, least / 1e3, times[name, int((count[name] + 1) / 2)] / 1e3
            }
        }
    }' | sort

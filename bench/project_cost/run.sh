#!/usr/bin/env bash
# What it costs to project a point, in picoseconds, through an orthographic camera and one in
# perspective that both show most of a million points: the least of PASSES runs (15) over them.
# Builds a program in a folder of its own.
set -eu
here=$(cd "$(dirname "$0")" && pwd)
root=$(cd "$here/../.." && pwd)
work=$(mktemp -d)
trap 'rm -rf "$work"' EXIT
mkdir -p "$work/crates/project_cost/src"
cp -r "$root/crates/view_base" "$root/crates/view_meaning" "$root/crates/int_camera" "$work/crates/"
rm -rf "$work"/crates/*/out
printf '%s\n' 'view_base: itoa' 'view_meaning: view_base byteorder' 'int_camera: view_base view_meaning' 'project_cost: int_camera view_base' > "$work/crates.txt"
cat > "$work/crates/project_cost/src/main.rt" <<'P'
//! Times the projection of points.
#![tactic(auto)]

use int_camera::{Camera, CameraNumbers, Kind, project};
use std::alloc::{AllocError, Global};
use std::io;
use std::rt::Clock;
use std::time::Instant;
use view_base::Point;

fn terrain(alloc: Global) -> Result<Vec<Point>, AllocError> {
    let mut points = Vec::new(alloc);
    let mut state = 1u64;
    for _ in 0..1_048_576u32 {
        state = state.wrapping_mul(6364136223846793005).wrapping_add(1442695040888963407);
        let x = (state >> 44) as i32;
        let y = (state >> 24 & 0xfffff) as i32;
        let z = (state >> 8 & 0xffff) as i32;
        points.push(Point { x, y, z })?;
    }
    Ok(points)
}

fn total(camera: &Camera, points: &[Point]) -> u64 {
    let mut sum = 0u64;
    for p in points {
        if let Some(spot) = project(camera, *p) {
            sum = sum.wrapping_add(u64::from(spot.pixel)).wrapping_add(u64::from(spot.depth) << 32);
        }
    }
    sum
}

fn time<R: Clock + Print>(rt: &R, name: &str, points: &[Point], numbers: &CameraNumbers) -> io::Result<()> {
    let Ok(camera) = Camera::new(numbers) else {
        return println!(rt; "no camera");
    };
    let start = Instant::now(rt)?;
    let mut sum = 0u64;
    // Each time from another point on, so that none of the sums can be taken for another.
    for first in 0..8usize {
        sum ^= total(&camera, &points[first.min(points.len())..]);
    }
    let picoseconds = start.elapsed(rt)?.as_nanos().wrapping_mul(1000) / (8 * 1_048_576);
    println!(rt; "{name} {picoseconds} {}", total(&camera, points) ^ sum)
}

fn main(rt: HostRuntime) -> io::Result<()> {
    let Ok(points) = terrain(rt.alloc()) else {
        return println!(&rt; "out of memory");
    };
    time(&rt, "ortho", &points, &CameraNumbers {
        kind: Kind::Ortho,
        n: [1000, 1000, 524288, 524288, 800000, 1000, 0, 0, 0, -1000, 0, 0, 0, -1000, 1050000, 1000, 1, 4294967294],
    })?;
    time(&rt, "persp", &points, &CameraNumbers {
        kind: Kind::Persp,
        n: [1000, 1000, 524288, 524288, 800000, 1000, 0, 0, 0, -1000, 0, 0, 0, -1000, 700, 1000, 1, 4294967294],
    })
}
P
(cd "$work/crates/project_cost" && rt run --jobs 2 > "$work/log" 2>&1) || { tail -40 "$work/log"; exit 1; }
for pass in $(seq 1 "${PASSES:-15}"); do "$work/crates/project_cost/out/project_cost"; done | awk '
    { if (!($1 in least) || $2 < least[$1]) least[$1] = $2 }
    END { printf "ortho %d ps, persp %d ps, ratio %.2f\n", least["ortho"], least["persp"], least["persp"] / least["ortho"] }'

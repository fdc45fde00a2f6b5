#!/usr/bin/env python3
"""Times how soon the page in the browser shows a new picture while a hand moves it.

    python3 bench/page/moves.py SURVEY [WORKERS [PICTURE.png]]

A real browser (Debian's chromium-driver and python3-selenium) with a picture of 1920 by 1080 drags a view for
some seconds, zooms, turns and flies, with an event each 16 ms, and makes single steps from rest. For each of them
it prints how long it took from an event to the paint of the first picture that has it, of the pictures that came
while the hand moved, and how long the whole picture took once it rested. With a name it keeps a picture of the page.
"""

import os
import statistics
import sys
import tempfile

ROOT = os.path.dirname(os.path.dirname(os.path.dirname(os.path.realpath(__file__))))
sys.path[:0] = [os.path.join(ROOT, "viewer"), os.path.join(ROOT, "examples")]

import test_browser
from tab_client import Viewer

# Moves for so many seconds, and tells of each picture its part of the size and its time, and at last the whole one's.
MOVES = """
const [kind, done] = arguments, seconds = 4, times = [], begun = performance.now(), paints = [];
const shows = show;
let events = new Map(), step = 0;
show = (head, rgb) => {
  const before = picture;
  shows(head, rgb);
  if (picture === before) return;
  // The first picture that was asked for after an event has it.
  for (const [n, at] of events) if (n < picture.n) { paints.push(performance.now() - at); events.delete(n); }
  times.push([picture.divide, picture.took]);
};
const timer = setInterval(() => {
  if (performance.now() - begun > 1000 * seconds) {
    clearInterval(timer);
    const wait = setInterval(() => {
      if (moving || !picture || picture.n !== asked || picture.divide !== 1) return;
      clearInterval(wait);
      show = shows;
      done([times, paints]);
    }, 20);
    return;
  }
  const now = performance.now(), before = asked;
  const way = Math.floor(step++ / 40) % 2 ? -1 : 1;
  if (kind === "step" && step % 50) return;
  if (kind === "drag" || kind === "step") pan(way * 9, way * 4);
  else if (kind === "zoom") zoom(canvas.width / 3, canvas.height / 3, way > 0 ? 0.98 : 1 / 0.98);
  else turn(way * 0.5, way * 0.1);
  if (!events.has(before)) events.set(before, now);
}, 16);
"""


def told(kind, times, paints):
    moved = sorted(paints)
    parts = sorted({part for part, _ in times[:-1]})
    print(f"{kind}: {len(times) - 1} pictures at 1/{' and 1/'.join(map(str, parts))} of the size while it moves; from an event to "
          f"its paint {statistics.median(moved):.0f} ms in the middle, {moved[len(moved) * 9 // 10]:.0f} ms of nine in ten, "
          f"{moved[-1]:.0f} ms at most; the whole picture {times[-1][1]} ms", flush=True)


def main():
    if len(sys.argv) < 2 or not test_browser.IS_THERE:
        sys.exit(__doc__)
    driver = test_browser.open_browser()
    driver.set_script_timeout(120)
    with tempfile.TemporaryDirectory() as folder:
        viewer = Viewer(os.path.abspath(sys.argv[1]), folder, "--workers", sys.argv[2] if len(sys.argv) > 2 else "4")
        try:
            driver.get(viewer.address)
            driver.execute_script("const s = document.getElementById('stage').style; s.flex = 'none'; s.width = '1920px'; s.height = '1080px'; resize()")
            for kind, view, by in (("step", "above", 1), ("drag", "above", 1), ("zoom", "above", 1), ("drag", "above", 8), ("turn", "oblique", 1), ("turn", "flight", 1)):
                driver.execute_script("look('whole'); look(arguments[0]); camera.pixel /= arguments[1]; moved()", view, by)
                times, paints = driver.execute_async_script(MOVES, kind)
                told(f"{kind}, {view}, {by} times nearer than the whole" if by > 1 else f"{kind}, {view}", times, paints)
            if len(sys.argv) > 3:
                driver.save_screenshot(sys.argv[3])
        finally:
            driver.quit()
            viewer.end()


main()

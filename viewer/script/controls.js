// ---- mouse, keys and buttons

function resize() {
  const ratio = devicePixelRatio, box = stage.getBoundingClientRect();
  const side = (length) => Math.max(STEP, Math.min(4096, Math.floor(length * ratio / STEP) * STEP));
  let [width, height] = [side(box.width), side(box.height)];
  while (width * height > 9437184) height -= STEP;
  for (const one of [canvas, over]) {
    [one.width, one.height] = [width, height];
    one.style.width = `${width / ratio}px`;
    one.style.height = `${height / ratio}px`;
  }
  if (camera) moved();
}

function pixelOf(event) {
  const box = canvas.getBoundingClientRect();
  return [(event.clientX - box.left) * devicePixelRatio, (event.clientY - box.top) * devicePixelRatio];
}

function select(on) {
  selecting = on && isAbove();
  stage.classList.toggle("selecting", selecting);
  $("select").classList.toggle("on", selecting);
}

function clear() {
  rectangle = null;
  for (const id of ["e0", "e1", "n0", "n1"]) $(id).value = "";
  select(false);
  paintOver();
}

// The rectangle from one pixel to another, both in it, on the picture that is shown.
function drawRectangle(from, to) {
  const inside = ([x, y]) => [Math.floor(Math.min(Math.max(x, 0), canvas.width - 1)), Math.floor(Math.min(Math.max(y, 0), canvas.height - 1))];
  const [c0, r0] = inside(from), [c1, r1] = inside(to);
  const [west, north] = place(Math.min(c0, c1), Math.min(r0, r1)), [east, south] = place(Math.max(c0, c1) + 1, Math.max(r0, r1) + 1);
  rectangle = {words: picture.words, pixels: [c0, r0, c1, r1], corners: [west, south, east, north]};
  for (const [id, k] of [["e0", 0], ["n0", 1], ["e1", 2], ["n1", 3]]) $(id).value = fixed(rectangle.corners[k]);
  paintOver();
}

function cornersTyped() {
  const corners = ["e0", "n0", "e1", "n1"].map((id) => Number.parseFloat($(id).value));
  rectangle = corners.every(Number.isFinite) ? {corners} : null;
  paintOver();
}

function edit() {
  if (!rectangle) return tell("said", "draw a rectangle, or give its corners in map coordinates", true);
  const heights = ["z0", "z1"].map((id) => $(id).value.trim());
  const numbers = heights.map((text, k) => (text === "" ? [-1e9, 1e9][k] : Number(text)));
  if (!numbers.every(Number.isFinite)) return tell("said", "a height is no number", true);
  const {words, pixels, corners} = rectangle, from = $("from").value.replace(/\s/g, "");
  ask({
    ask: "edit", n: "edit", from, to: Number($("to").value), heights: heights.every((text) => text === "") ? null : numbers,
    ...(pixels ? {words, pixels} : {corners}),
  });
  tell("said", "..");
}

stage.addEventListener("pointerdown", (event) => {
  if (!camera || event.target.tagName === "BUTTON") return;
  stage.focus();
  const at = pixelOf(event), turns = event.button === 2 || event.ctrlKey;
  const draws = (selecting || event.shiftKey) && isAbove() && !turns;
  // A rectangle is drawn on the picture that was asked for last.
  if (draws && (!picture || picture.n !== asked)) return;
  dragging = {at, from: at, does: draws ? "draw" : turns || camera.form === "persp" ? "turn" : "pan"};
  stage.setPointerCapture(event.pointerId);
});

stage.addEventListener("pointermove", (event) => {
  if (!camera) return;
  pointer = pixelOf(event);
  showWhere();
  if (!dragging) return;
  const [x, y] = [pointer[0] - dragging.at[0], pointer[1] - dragging.at[1]];
  dragging.at = pointer;
  if (dragging.does === "draw") drawRectangle(dragging.from, pointer);
  else if (dragging.does === "turn") turn(camera.form === "persp" ? -x * camera.angle / canvas.width : x / 4, camera.form === "persp" ? -y * camera.angle / canvas.width : -y / 4);
  else pan(x, y);
});

stage.addEventListener("pointerup", () => {
  if (dragging && dragging.does === "draw") select(false);
  dragging = null;
});
stage.addEventListener("pointercancel", () => { dragging = null; });
stage.addEventListener("contextmenu", (event) => event.preventDefault());
stage.addEventListener("wheel", (event) => {
  event.preventDefault();
  if (camera) zoom(...pixelOf(event), 1.0015 ** (event.deltaMode === 1 ? 33 * event.deltaY : event.deltaY));
}, {passive: false});

const VIEW_KEYS = {1: "above", 2: "south", 3: "west", 4: "north", 5: "east", 6: "oblique", 7: "flight", 0: "whole"};
const FLIGHT_KEYS = ["w", "a", "s", "d", "q", "e", "arrowleft", "arrowright", "arrowup", "arrowdown"];
const KEYS = {
  arrowleft: () => pan(canvas.width / 10, 0), arrowright: () => pan(-canvas.width / 10, 0),
  arrowup: () => pan(0, canvas.height / 10), arrowdown: () => pan(0, -canvas.height / 10),
  "+": () => zoom(canvas.width / 2, canvas.height / 2, 0.8), "=": () => zoom(canvas.width / 2, canvas.height / 2, 0.8),
  "-": () => zoom(canvas.width / 2, canvas.height / 2, 1.25),
  "[": () => turn(-5, 0), "]": () => turn(5, 0), pageup: () => turn(0, -5), pagedown: () => turn(0, 5),
  r: () => select(!selecting), escape: clear, enter: () => request(1),
};

addEventListener("keydown", (event) => {
  const key = event.key.toLowerCase(), {tagName, type} = event.target;
  const presses = tagName === "BUTTON" || type === "checkbox";
  if (!camera || event.ctrlKey || event.altKey || event.metaKey) return;
  if (presses ? key === "enter" || key === " " : /INPUT|TEXTAREA|SELECT/.test(tagName)) return;
  if (VIEW_KEYS[key]) look(VIEW_KEYS[key]);
  else if (camera.form === "persp" && FLIGHT_KEYS.includes(key)) held.add(key);
  else if (KEYS[key]) KEYS[key]();
  else return;
  event.preventDefault();
});
addEventListener("keyup", (event) => held.delete(event.key.toLowerCase()));
addEventListener("blur", () => held.clear());
addEventListener("resize", resize);

for (const button of $("views").children) button.onclick = () => camera && look(button.dataset.view);
for (const name of ["down", "towards", "angle"]) {
  $(name).onchange = () => {
    const given = Number($(name).value);
    const [least, most] = {down: [camera.form === "persp" ? -90 : 0, 90], towards: [-1e6, 1e6], angle: [10, 150]}[name];
    camera[name] = Math.min(Math.max(given, least), most);
    if (name === "towards") camera.towards = ((camera.towards % 360) + 360) % 360;
    moved();
  };
}
$("colour").onchange = restyle;
$("withheld").onchange = restyle;
$("usual").onchange = () => { showLegend(); if (picture) { convert(); paint(); } };
$("points").onchange = () => { if (picture) { convert(); paint(); } };
$("background").oninput = () => { if (picture) paint(); };
$("all-on").onclick = () => { off.clear(); restyle(); };
$("all-off").onclick = () => { for (const [kind] of counts) off.add(kind); restyle(); };
$("take").onclick = () => request(1);
$("follow").onchange = () => { if ($("follow").checked && picture && newest > picture.version) request(1); };
$("select").onclick = () => select(!selecting);
$("clear").onclick = clear;
$("edit").onclick = edit;
for (const id of ["e0", "n0", "e1", "n1"]) $(id).oninput = cornersTyped;
$("save").onclick = () => {
  const link = document.createElement("a");
  link.href = `/save?key=${key}&tab=${tab}`;
  link.download = "";
  link.click();
};
$("copy").onclick = () => {
  navigator.clipboard.writeText($("words").value).catch(() => { $("words").select(); document.execCommand("copy"); });
};
$("paste").onclick = () => {
  const words = prompt("The 22 words of a view, as `draw` and `view` have them:");
  if (words) goTo(words);
};
$("ask").onsubmit = (event) => {
  event.preventDefault();
  const text = $("line").value.trim();
  if (/^view\s/.test(text)) return goTo(text);
  if (text) ask({ask: "line", n: "line", line: text});
};

// Takes the camera of view words, for the size that the picture has here.
function goTo(text) {
  const words = text.trim().split(/\s+/).filter((word, k) => k || word !== "view"), numbers = words.slice(1, 19).map(Number);
  if (words.length !== 22 || !/^(ortho|persp)$/.test(words[0]) || !numbers.every(Number.isFinite)) return wrong("these aren't the 22 words of a view");
  const unit = (axis) => axis.map((part, k) => part / survey.scale[k]);
  const right = unit(numbers.slice(5, 8)), ahead = unit(numbers.slice(11, 14));
  const [across, length] = [Math.hypot(...right), Math.hypot(...ahead)];
  if (!across || !length) return wrong("these words look nowhere");
  camera.form = words[0];
  camera.at = numbers.slice(2, 5).map((part, k) => survey.offset[k] + part * survey.scale[k]);
  camera.down = Math.asin(-ahead[2] / length) * 180 / Math.PI;
  camera.towards = ((Math.atan2(-right[1], right[0]) * 180 / Math.PI) + 360) % 360;
  if (words[0] === "ortho") camera.pixel = numbers[14] / across * numbers[0] / canvas.width;
  else camera.angle = 2 * Math.atan(numbers[0] / 2 / numbers[14]) * 180 / Math.PI;
  for (const name of ["down", "towards"]) camera[name] = Math.round(camera[name] * 1e4) / 1e4;
  keepLevel();
  moved();
}

sit();
connect();
requestAnimationFrame(frame);

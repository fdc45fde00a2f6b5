"use strict";
// The page of the viewer: it asks for pictures over one WebSocket, and shows the last one that it asked for.
const key = new URL(document.currentScript.src).searchParams.get("key");
const $ = (id) => document.getElementById(id);
const stage = $("stage"), canvas = $("picture"), over = $("over");
const STEP = 8, REST = 150, FAST = 35, SLOW = 90, THRIFTY = 0.1;

let line = null, survey = null, seat = null, tab = null, ended = null;
// The camera in map coordinates, what else a picture shows, and the classes that are left out.
let camera = null, off = new Set(), counts = [], newest = 0, edits = [];
// The picture that is shown, the number of the last one that was asked for, and what was asked by number.
let picture = null, asked = 0, asks = new Map(), divide = 2, room = 1;
let changed = false, moving = false, followed = "", resting = 0, lastFrame = 0, lastAsked = 0;
let rectangle = null, selecting = false, dragging = null, pointer = null;
const held = new Set();

const rad = (degrees) => degrees * Math.PI / 180;
const dot = (a, b) => a[0] * b[0] + a[1] * b[1] + a[2] * b[2];
const along = (at, axis, by) => at.map((part, k) => part + axis[k] * by);

function axes(c) {
  const east = Math.sin(rad(c.towards)), north = Math.cos(rad(c.towards));
  const level = Math.cos(rad(c.down)), deep = Math.sin(rad(c.down));
  return [[north, -east, 0], [-deep * east, -deep * north, -level], [level * east, level * north, -deep]];
}

const isAbove = () => camera.form === "ortho" && camera.down === 90 && camera.towards === 0;
const middle = () => survey.low.map((low, k) => (low + survey.high[k]) / 2);
const focal = () => canvas.width / 2 / Math.tan(rad(camera.angle) / 2);

// Where a place of the map falls on the canvas, or nothing behind the eye.
function spot(place) {
  const [right, down, ahead] = axes(camera), way = place.map((part, k) => part - camera.at[k]);
  const depth = dot(way, ahead), scale = camera.form === "ortho" ? 1 / camera.pixel : focal() / depth;
  if (camera.form === "persp" && depth <= 0) return null;
  return [canvas.width / 2 + dot(way, right) * scale, canvas.height / 2 + dot(way, down) * scale];
}

// The place of the map under a point of the canvas, at a height where one is looked at; or nothing.
function place(x, y, height) {
  const [right, down, ahead] = axes(camera);
  x -= canvas.width / 2;
  y -= canvas.height / 2;
  let at = camera.at, way = ahead;
  if (camera.form === "ortho") at = along(along(at, right, x * camera.pixel), down, y * camera.pixel);
  else way = along(along(ahead, right, x / focal()), down, y / focal());
  if (height === undefined) return at;
  const steps = (height - at[2]) / way[2];
  return Math.abs(way[2]) < 0.02 || camera.form === "persp" && steps < 0 ? null : along(at, way, steps);
}

// ---- cameras

// How far it is from one corner of the survey to the opposite one.
const size = () => Math.hypot(...survey.low.map((low, k) => survey.high[k] - low)) || 1;

// The camera stays about the survey, since a place far away has no number in the file.
function stay() {
  camera.at = camera.at.map((part, k) => Math.min(Math.max(part, survey.low[k] - size()), survey.high[k] + size()));
}

function whole() {
  const c = camera, at = middle();
  const corners = [0, 1, 2, 3, 4, 5, 6, 7].map((k) => survey.low.map((low, axis) => (k >> axis & 1 ? survey.high[axis] : low)));
  const [right, down] = axes(c);
  const spread = (axis) => { const all = corners.map((p) => dot(p, axis)); return Math.max(...all) - Math.min(...all); };
  c.pixel = Math.max(spread(right) / canvas.width, spread(down) / canvas.height, Math.abs(survey.scale[0]) / 10) * 1.02;
  c.at = at;
}

const SIDES = {above: [90, 0], south: [0, 0], west: [0, 90], north: [0, 180], east: [0, 270]};

function look(view) {
  if (view === "flight") return fly();
  if (camera.form === "persp") land();
  if (view === "whole") whole();
  else if (SIDES[view]) [camera.down, camera.towards] = SIDES[view];
  else [camera.down, camera.towards] = [35, camera.towards || 30];
  keepLevel();
  moved();
}

function fly() {
  if (camera.form === "persp") return;
  keepLevel();
  camera.down = Math.min(Math.max(camera.down, 15), 50);
  const back = camera.pixel * canvas.width / 2 / Math.tan(rad(camera.angle) / 2);
  camera.at = along(camera.at, axes(camera)[2], -back);
  camera.form = "persp";
  moved();
}

function land() {
  const height = middle()[2], at = place(canvas.width / 2, canvas.height / 2, height) || [camera.at[0], camera.at[1], height];
  const far = Math.hypot(...at.map((part, k) => part - camera.at[k]));
  camera.pixel = Math.max(far / focal(), Math.abs(survey.scale[0]) / 10);
  camera.form = "ortho";
  camera.down = Math.min(Math.max(camera.down, 0), 90);
  camera.at = at;
}

// The place in the middle slides along the line of sight to the middle height, round which it is turned then.
function keepLevel() {
  if (camera.form === "ortho") camera.at = place(canvas.width / 2, canvas.height / 2, middle()[2]) || camera.at;
}

function pan(x, y) {
  const [right, down] = axes(camera);
  camera.at = along(along(camera.at, right, -x * camera.pixel), down, -y * camera.pixel);
  keepLevel();
  moved();
}

function zoom(x, y, factor) {
  if (camera.form === "persp") {
    const way = axes(camera), to = along(along(way[2], way[0], (x - canvas.width / 2) / focal()), way[1], (y - canvas.height / 2) / focal());
    camera.at = along(camera.at, to, (1 - factor) * reach());
  } else {
    const before = place(x, y);
    camera.pixel = Math.min(Math.max(camera.pixel * factor, Math.abs(survey.scale[0]) / 100), size() / 16);
    const after = place(x, y);
    camera.at = camera.at.map((part, k) => part + before[k] - after[k]);
  }
  moved();
}

function turn(right, up) {
  camera.towards = (((camera.towards + right) % 360) + 360) % 360;
  camera.down = Math.min(Math.max(camera.down - up, camera.form === "persp" ? -90 : 0), 90);
  moved();
}

// How far a flight is from what it flies over, for its speed.
const reach = () => Math.max(Math.abs(camera.at[2] - survey.low[2]), (survey.high[0] - survey.low[0]) / 200, 1);

function flyOn(seconds) {
  const [right, , ahead] = axes(camera), by = reach() * seconds * 1.2, on = (k) => (held.has(k) ? 1 : 0);
  camera.at = along(camera.at, ahead, by * (on("w") - on("s")));
  camera.at = along(camera.at, right, by * (on("d") - on("a")));
  camera.at[2] += by * (on("e") - on("q")) * 0.7;
  turn(60 * seconds * (on("arrowright") - on("arrowleft")), 45 * seconds * (on("arrowup") - on("arrowdown")));
}

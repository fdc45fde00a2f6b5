// ---- pictures

const colouring = () => ({colour: $("colour").value, classes: classList(), withheld: $("withheld").checked ? "show" : "hide"});

function classList() {
  const runs = [];
  for (let kind = 0; kind < 256; kind++) {
    if (off.has(kind)) continue;
    if (runs.length && runs[runs.length - 1][1] === kind - 1) runs[runs.length - 1][1] = kind;
    else runs.push([kind, kind]);
  }
  return off.size ? runs.map(([low, high]) => (low === high ? low : `${low}-${high}`)).join(",") : "all";
}

function ask(message) {
  if (line && line.readyState === 1) line.send(JSON.stringify(message));
}

function request(by) {
  const c = {...camera, at: [...camera.at]};
  asks.set(++asked, {camera: c, since: performance.now(), by});
  ask({ask: "view", n: asked, ...c, size: [canvas.width, canvas.height], divide: by, pack: $("pack").checked, ...colouring()});
  showState();
}

// The camera moved: a picture is asked for at once, and of many moves in a frame for the first and the last.
function moved() {
  stay();
  if (!changed) requestMoving();
  changed = moving = true;
  clearTimeout(resting);
  resting = setTimeout(() => { moving = false; if (seat) request(1); }, REST);
}

function frame(now) {
  requestAnimationFrame(frame);
  if (!camera || ended) return;
  if (camera.form === "persp" && held.size) flyOn(Math.min((now - lastFrame) / 1000, 0.1));
  lastFrame = now;
  if (!changed) return;
  changed = false;
  paint();
  if (moving) requestMoving();
}

// The less the sessions can still be asked, the fewer pictures are drawn while the hand moves.
function requestMoving() {
  const where = JSON.stringify(camera), now = performance.now();
  if (!seat || room <= THRIFTY || where === followed) return;
  if (room < 0.5 && now - lastAsked < 1000 * (0.5 - room)) {
    changed = true;
    return;
  }
  [followed, lastAsked] = [where, now];
  request(divide);
}

function arrived(data) {
  const length = new DataView(data).getUint32(0, true);
  const head = JSON.parse(new TextDecoder().decode(new Uint8Array(data, 4, length)));
  const pixels = new Uint8Array(data, 4 + length);
  ask({ask: "ready"});
  if (head.packed) unpacked(pixels).then((rgb) => show(head, rgb));
  else show(head, pixels);
}

async function unpacked(pixels) {
  const stream = new Blob([pixels]).stream().pipeThrough(new DecompressionStream("deflate"));
  return new Uint8Array(await new Response(stream).arrayBuffer());
}

function show(head, rgb) {
  const from = asks.get(head.n);
  for (const n of asks.keys()) if (n <= head.n) asks.delete(n);
  if (!from || picture && head.n < picture.n) return;
  head.rgb = rgb;
  // A camera stands on whole numbers: the page takes it as it came to stand.
  head.camera = {...from.camera, ...head.stands};
  if (head.n === asked) {
    camera = {...head.camera};
    followed = JSON.stringify(camera);
  }
  picture = head;
  room = head.room;
  convert();
  paint();
  const took = performance.now() - from.since;
  if (head.divide > 1) divide = took > SLOW ? 4 : took < FAST ? 2 : divide;
  picture.took = Math.round(took);
  keep();
  showWords();
  showNewer();
}

// A tab that is loaded again goes on where it was.
function keep() {
  sessionStorage.setItem("kept", JSON.stringify({survey: survey.survey, camera, off: [...off]}));
}

function kept() {
  try {
    const last = JSON.parse(sessionStorage.getItem("kept"));
    if (last.survey !== survey.survey) return false;
    camera = last.camera;
    off = new Set(last.off);
    return true;
  } catch (_) {
    return false;
  }
}

// Pixels that show no record stay clear, so that the background is seen.
function convert() {
  const [width, height] = picture.size, rgb = picture.rgb, out = new Uint32Array(width * height);
  const usual = $("usual").checked && picture.words.includes(" class ");
  const table = new Uint32Array(256);
  if (usual) survey.classes.forEach(([, [r, g, b], [red]]) => { table[red] = 0xff000000 | b << 16 | g << 8 | r; });
  for (let k = 0, at = 0; k < out.length; k++, at += 3) {
    const r = rgb[at], g = rgb[at + 1], b = rgb[at + 2];
    if (r | g | b) out[k] = usual ? table[r] : 0xff000000 | b << 16 | g << 8 | r;
  }
  const points = Math.round((Number($("points").value) - 1) / 2 / picture.divide);
  const data = points ? widened(out, width, height, points) : out;
  picture.canvas = picture.canvas || document.createElement("canvas");
  [picture.canvas.width, picture.canvas.height] = [width, height];
  picture.canvas.getContext("2d").putImageData(new ImageData(new Uint8ClampedArray(data.buffer), width, height), 0, 0);
}

// A clear pixel gets the colour of the nearest record that is up to so many pixels away; others stay.
function widened(from, width, height, half) {
  const steps = [], out = from.slice();
  for (let y = -half; y <= half; y++) for (let x = -half; x <= half; x++) steps.push([y, x]);
  steps.sort((a, b) => a[0] ** 2 + a[1] ** 2 - b[0] ** 2 - b[1] ** 2);
  for (let y = 0, k = 0; y < height; y++) {
    for (let x = 0; x < width; x++, k++) {
      if (from[k]) continue;
      for (const [down, right] of steps) {
        if (y + down < 0 || y + down >= height || x + right < 0 || x + right >= width) continue;
        const other = from[k + down * width + right];
        if (other) { out[k] = other; break; }
      }
    }
  }
  return out;
}

// Draws the picture where it lies under the camera of now: the one asked for may still be on its way.
function paint() {
  const c = canvas.getContext("2d"), p = picture;
  c.setTransform(1, 0, 0, 1, 0, 0);
  c.fillStyle = $("background").value;
  c.fillRect(0, 0, canvas.width, canvas.height);
  if (p) {
    const [width, height] = p.size.map((side) => side * p.divide), from = p.camera;
    let scale = 1, x = canvas.width / 2, y = canvas.height / 2;
    if (from.form === "ortho" && camera.form === "ortho" && from.down === camera.down && from.towards === camera.towards) {
      scale = from.pixel / camera.pixel;
      [x, y] = spot(from.at);
    }
    x -= scale * width / 2;
    y -= scale * height / 2;
    if (Math.abs(scale - 1) < 1e-9) [x, y, scale] = [Math.round(x), Math.round(y), 1];
    c.imageSmoothingEnabled = false;
    c.drawImage(p.canvas, x, y, width * scale, height * scale);
  }
  paintOver();
  showBar();
}

const EDGES = [[0, 1], [0, 2], [0, 4], [1, 3], [1, 5], [2, 3], [2, 6], [3, 7], [4, 5], [4, 6], [5, 7], [6, 7]];

function outline(c, low, high, colour) {
  const corners = [0, 1, 2, 3, 4, 5, 6, 7].map((k) => spot(low.map((part, axis) => (k >> axis & 1 ? high[axis] : part))));
  c.strokeStyle = colour;
  c.lineWidth = 2;
  c.beginPath();
  for (const [a, b] of EDGES) {
    if (!corners[a] || !corners[b]) continue;
    c.moveTo(...corners[a]);
    c.lineTo(...corners[b]);
  }
  c.stroke();
}

function paintOver() {
  const c = over.getContext("2d");
  c.clearRect(0, 0, over.width, over.height);
  for (const edit of edits) if (picture && edit.version > picture.version && edit.box) outline(c, ...edit.box, "#ffd400");
  if (!rectangle || !camera) return;
  const [e0, n0, e1, n1] = rectangle.corners, z = middle()[2];
  outline(c, [e0, n0, z], [e1, n1, z], "#00e5ff");
}

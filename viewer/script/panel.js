// ---- what is told beside the picture

const digits = () => Math.min(Math.max(Math.ceil(-Math.log10(Math.abs(survey.scale[0]))), 0), 6);
const fixed = (number) => number.toFixed(digits());

function showBar() {
  $("bar").hidden = camera.form === "persp";
  const most = 160 * devicePixelRatio * camera.pixel, ten = 10 ** Math.floor(Math.log10(most));
  const length = [5, 2, 1].map((k) => k * ten).find((l) => l <= most) || ten;
  $("bar-line").style.width = `${length / camera.pixel / devicePixelRatio}px`;
  $("bar-text").textContent = `${Number(length.toPrecision(1))} ${survey.unit}`;
}

function showWhere() {
  if (!pointer || !camera) return;
  let text = "";
  const at = camera.form === "ortho" && place(...pointer);
  if (at && isAbove()) text = `E ${fixed(at[0])}  N ${fixed(at[1])}`;
  else if (at && camera.down === 0 && camera.towards % 180 === 0) text = `E ${fixed(at[0])}  Z ${fixed(at[2])}`;
  else if (at && camera.down === 0 && camera.towards % 90 === 0) text = `N ${fixed(at[1])}  Z ${fixed(at[2])}`;
  else {
    const height = middle()[2], on = place(...pointer, height);
    text = on ? `E ${fixed(on[0])}  N ${fixed(on[1])}  at height ${fixed(height)}` : "above the horizon";
  }
  $("where").textContent = text;
  $("where").hidden = !text;
}

function showWords() {
  $("words").value = picture.words;
  for (const name of ["down", "towards"]) if (document.activeElement !== $(name)) $(name).value = Math.round(camera[name] * 10) / 10;
  $("angle-label").hidden = camera.form !== "persp";
  const is = Object.keys(SIDES).find((name) => SIDES[name][0] === camera.down && SIDES[name][1] === camera.towards);
  const view = camera.form === "persp" ? "flight" : is || "oblique";
  for (const button of $("views").children) button.classList.toggle("on", button.dataset.view === view);
  $("select").disabled = view !== "above";
  $("select").title = view === "above" ? "R" : "a rectangle is drawn on a view from above, with north at the top";
  if (view !== "above") select(false);
  showState();
}

function showState() {
  const drawing = asks.size ? ", drawing .." : "";
  const left = room < 0.5 ? ` · ${Math.round(room * 100)} % of the views are left` : "";
  $("state").textContent = seat ? (picture ? `seat ${seat} · version ${picture.version} · ${picture.took || 0} ms${drawing}${left}` : `seat ${seat}`) : "no seat yet";
}

function showNewer() {
  const is = picture && newest > picture.version;
  $("newer").hidden = !is;
  if (!is) return;
  const last = edits.filter((edit) => edit.version > picture.version), sum = last.reduce((all, edit) => all + edit.count, 0);
  const boxes = last.map((edit) => edit.box).filter(Boolean);
  const reach = (axis) => `${fixed(Math.min(...boxes.map(([low]) => low[axis])))} to ${fixed(Math.max(...boxes.map(([, high]) => high[axis])))}`;
  const where = boxes.length ? `, in E ${reach(0)}, N ${reach(1)}` : "";
  $("newer-text").textContent = `Version ${newest} is there: ${sum} ${sum === 1 ? "record" : "records"} changed${where}. This is version ${picture.version}.`;
}

function showEdits() {
  $("edits").replaceChildren(...edits.slice(-30).reverse().map((edit) => {
    const item = document.createElement("li"), code = document.createElement("code");
    item.textContent = `version ${edit.version}: ${edit.count} ${edit.count === 1 ? "record" : "records"}, seat ${edit.seat}`;
    code.textContent = edit.line;
    item.append(code);
    return item;
  }));
}

function showLegend() {
  const hides = !$("withheld").checked, usual = $("usual").checked;
  $("legend").replaceChildren(...counts.map(([kind, shown, unheld]) => {
    const row = document.createElement("tr"), box = document.createElement("input"), swatch = document.createElement("i");
    const [name, asprs, own] = survey.classes[kind];
    box.type = "checkbox";
    box.checked = !off.has(kind);
    box.id = `class-${kind}`;
    box.onchange = () => { box.checked ? off.delete(kind) : off.add(kind); restyle(); };
    swatch.style.background = `rgb(${(usual ? asprs : own).join(",")})`;
    for (const what of [box, swatch, String(kind), name || "class", (hides ? unheld : shown).toLocaleString("en")]) row.insertCell().append(what);
    row.cells[3].className = "name";
    row.cells[3].title = "a click puts the class into `from classes`";
    row.cells[3].onclick = () => { $("from").value = kind; };
    row.cells[4].className = "count";
    row.classList.toggle("off", off.has(kind));
    return row;
  }));
}

function tell(id, text, refused) {
  $(id).textContent = text;
  $(id).classList.toggle("refused", Boolean(refused));
}

let wrongTimer = 0;
function wrong(text) {
  tell("wrong", text);
  $("wrong").hidden = false;
  clearTimeout(wrongTimer);
  wrongTimer = setTimeout(() => { $("wrong").hidden = true; }, 6000);
}

// Asks for the picture anew, and shows the legend as it is now.
function restyle() {
  showLegend();
  if (seat) request(1);
}

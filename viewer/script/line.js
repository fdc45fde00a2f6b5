// ---- what the viewer says

const SAYS = {
  hello(said) {
    const first = !survey;
    survey = said;
    [counts, newest, edits] = [said.counts, said.version, said.edits];
    document.title = `${said.survey} - Hidrevca`;
    $("name").textContent = said.survey;
    $("about").textContent = `${said.records.toLocaleString("en")} records, format ${said.format}; coordinate system: ${said.system}`;
    for (const option of $("colour").options) option.disabled = option.value.startsWith("rgb") && !said.rgb;
    $("reasons").dataset.rgb = said.rgb ? "" : `RGB: point data record format ${said.format} has none`;
    greyWithheld();
    if (first) {
      $("to").replaceChildren(...said.classes.slice(0, said.greatest + 1).map(([name], kind) => new Option(`${kind} ${name}`.trim(), kind)));
      camera = {form: "ortho", at: middle(), pixel: 1, down: 90, towards: 0, angle: 60};
      resize();
      if (!kept()) whole();
    }
    $("journal").textContent = `The journal of the edits will be ${said.journal}`;
    showLegend();
    showEdits();
  },
  seat(said) {
    [seat, tab] = [said.seat, said.tab];
    $("ended").hidden = true;
    sit();
    request(1);
  },
  wait(said) {
    seat = null;
    sit();
    notice("All seats are taken", `${said.seats} tabs have a seat. This one is number ${said.place} of those that wait, and begins when a seat is free.`, "");
    showState();
  },
  edited(said) {
    edits.push(said);
    edits.sort((a, b) => a.version - b.version);
    newest = Math.max(newest, said.version);
    showEdits();
    showNewer();
    paintOver();
    if (seat && ($("follow").checked || said.seat === seat)) request(1);
  },
  counts(said) {
    counts = said.counts;
    survey.withheld = said.withheld;
    greyWithheld();
    showLegend();
  },
  done(said) {
    tell(said.n === "line" ? "told" : "said", said.text, said.reply[0] === "REFUSED");
  },
  wrong(said) {
    if (said.n === "line" || said.n === "edit") tell(said.n === "line" ? "told" : "said", said.text, true);
    else wrong(said.text);
    for (const n of asks.keys()) if (n <= said.n) asks.delete(n);
    showState();
  },
  end(said) {
    ended = said;
    const where = said.failed ? "The program ended before it was told to. The edits that it answered are in" : "The journal of the edits is in";
    notice(said.failed ? "The run broke off" : "The viewer was ended", said.text, `${where} ${said.journal}`);
  },
};

// What needs a session waits for a seat.
function sit() {
  for (const id of ["edit", "save", "line"]) $(id).disabled = !seat;
}

function greyWithheld() {
  const none = !survey.withheld;
  $("withheld").disabled = none;
  $("reasons").textContent = [$("reasons").dataset.rgb, none ? "withheld records: the survey has none" : ""].filter(Boolean).join("; ");
}

function notice(title, text, journal) {
  $("ended").hidden = false;
  tell("ended-title", title);
  tell("ended-text", text);
  tell("ended-journal", journal);
}

function connect() {
  line = new WebSocket(`ws://${location.host}/tab?key=${key}`);
  line.binaryType = "arraybuffer";
  line.onmessage = ({data}) => {
    if (data instanceof ArrayBuffer) return arrived(data);
    const said = JSON.parse(data);
    if (SAYS[said.say]) SAYS[said.say](said);
  };
  line.onclose = () => {
    seat = null;
    sit();
    if (ended) return;
    notice("The viewer does not answer", "It is tried again every two seconds.", survey ? `The journal of the run is in ${survey.journal}, once it has ended.` : "");
    setTimeout(connect, 2000);
  };
}

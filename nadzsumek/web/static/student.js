"use strict";
// The student's page: an editor, Run, what came, the machine as it is, any line of a terminal, exercises, steps, the film and the guide.

const FIRST = `CHAN OF BYTE from, to:
PLACE from AT link0.in:
PLACE to AT link0.out:
BYTE letter:
WHILE TRUE
  SEQ
    from ? letter
    to ! BYTE ((INT letter) + 1)
`;
// How long after the last key a text is looked at and kept, and how soon what failed is tried again, in milliseconds.
const LOOK_AFTER = 400, KEEP_AFTER = 1500, FIRST_RETRY = 500, MOST_RETRY = 10000;
const RESTS = { quiet: "it rests", busy: "it computes", full: "its room is used up: restart gives it back" };
let exercises = {}, verbs = [], keeping = 0, looking = 0, retry = FIRST_RETRY, isRunning = false, editor, show, mine;

const asked = (more = {}) => ({ kind: $("kind").value, text: editor.text, ...more });

// ---- the text

function showMistakes(mistakes) {
  editor.mark(mistakes);
  $("mistakes").replaceChildren(...mistakes.map((it) => {
    const text = it.line ? `line ${it.line}, column ${it.column}: ${it.text}` : it.text;
    return made("li", {}, made("button", { type: "button", text, onclick: () => it.line && editor.goTo(it.line, it.column) }));
  }));
}

// Says what is wrong with the text while it is written.
async function look() {
  const before = asked(), told = await post("/mistakes", before);
  if (before.text === editor.text && before.kind === $("kind").value && told.mistakes) showMistakes(told.mistakes);
}

// A text that isn't kept yet stays in this browser until the server has it.
function hold() {
  try {
    localStorage.setItem(mine, JSON.stringify(asked()));
  } catch {
    // the browser keeps nothing
  }
}

async function keep() {
  clearTimeout(keeping);
  const before = asked(), told = await post("/text", before);
  if (told.error) {
    $("kept").textContent = told.error;
    keeping = setTimeout(keep, KEEP_AFTER * 2);
  } else if (before.text === editor.text) {
    localStorage.removeItem(mine);
    $("kept").textContent = "kept";
  }
}

function changed() {
  $("kept").textContent = "";
  $("version").value = "";
  hold();
  clearTimeout(keeping);
  clearTimeout(looking);
  keeping = setTimeout(keep, KEEP_AFTER);
  looking = setTimeout(look, LOOK_AFTER);
}

async function showVersions() {
  const told = await got("/versions");
  if (told.error) return;
  $("version").replaceChildren(new Option("now", ""), ...told.map((it) => new Option(moment(it.at), it.number)));
}

async function goBack() {
  if (!$("version").value) return;
  const told = await got(`/versions?number=${$("version").value}`);
  if (told.error) return;
  $("kind").value = told.kind;
  editor.put(told.text);
  hold();
  look();
}

// ---- running

function showCame(came) {
  const rows = [["bytes", came.count], ["letters", came.letters], ["numbers", came.numbers], ["hex", came.hex]];
  $("came").replaceChildren(...rows.filter(([, it]) => it || it === 0).map(([head, it]) => rowOf(head, it)));
}

async function run() {
  if (isRunning) return;
  isRunning = true;
  $("run").disabled = true;
  show("machine");
  const told = await post("/run", asked({ send: $("send").value }));
  isRunning = false;
  $("run").disabled = false;
  clearTimeout(looking);
  showMistakes(told.mistakes || (told.error ? [{ text: told.error }] : []));
  if (told.came) showCame(told.came);
  if (!told.error) keepLocal();
}

// Run has kept the text already.
function keepLocal() {
  clearTimeout(keeping);
  localStorage.removeItem(mine);
  $("kept").textContent = "kept";
  showVersions();
}

function showState(told) {
  $("state").textContent = told.error || RESTS[told.rest] + (told.replaying ? ", what was done is replayed" : "");
  const picture = told.picture;
  $("picture").replaceChildren(...(picture ? [pictureOf(picture)] : []));
  $("why").replaceChildren(...(picture ? processesOf(picture, (_, line) => editor.goTo(line)) : []));
  $("used").hidden = !told.room;
  if (told.room) {
    $("room").value = told.used / told.room;
    $("room").title = `${Math.round((100 * told.used) / told.room)} % of the room is used`;
  }
  editor.marks = {};
  for (const node of picture?.nodes ?? []) {
    for (const it of node.processes) if (it.node === 0) editor.marks[it.line] = it.does === "erred" ? "wrong" : it.does === "waits" ? "waits" : "runs";
  }
  editor.show();
}

function hear() {
  const stream = new WebSocket(`${location.protocol === "https:" ? "wss" : "ws"}://${location.host}/live`);
  stream.onopen = () => {
    retry = FIRST_RETRY;
    $("connection").textContent = "";
    if (localStorage.getItem(mine)) keep();
  };
  stream.onmessage = ({ data }) => showState(JSON.parse(data));
  stream.onclose = () => {
    $("connection").textContent = "not connected: trying again";
    setTimeout(hear, retry);
    retry = Math.min(2 * retry, MOST_RETRY);
  };
}

// ---- lines

async function ask(event) {
  event.preventDefault();
  const line = $("line").value.trim();
  if (!line) return;
  const told = await post("/line", { line });
  $("answers").textContent = `${$("answers").textContent}> ${line}\n${told.error || told.lines.join("\n")}\n`.slice(-20000);
  $("answers").scrollTop = $("answers").scrollHeight;
  $("line").select();
}

// The verbs that the line may mean: those that it begins, or the one that it has.
function meant() {
  const [word, ...more] = $("line").value.trimStart().split(/\s+/);
  return verbs.filter((it) => (more.length ? it.name === word : word && it.name.startsWith(word)));
}

function hint() {
  const found = meant();
  $("hint").textContent = found.length === 1 ? `${found[0].form}: ${found[0].meaning}` : found.map((it) => it.name).join("  ");
}

function complete(event) {
  const found = meant(), isWord = /^\S+$/.test($("line").value);
  if (event.key !== "Tab" || event.shiftKey || !isWord || !found.length || found.some((it) => it.name === $("line").value)) return;
  event.preventDefault();
  let common = found[0].name;
  while (!found.every((it) => it.name.startsWith(common))) common = common.slice(0, -1);
  $("line").value = common + (found.length === 1 ? " " : "");
  hint();
}

// ---- exercises

function showExercise() {
  const it = exercises[$("exercise").value];
  $("task").textContent = it.task;
  $("tests").replaceChildren();
  $("submit").disabled = it.closed;
  const last = it.submitted, closes = it.closes === null ? "" : `; ${it.closed ? "closed" : "closes"} at ${moment(it.closes)}`;
  $("submitted").textContent = (last ? `handed in at ${moment(last.at)}: ${last.points} of ${last.of} points` : "not handed in yet") + closes;
}

async function showExercises(chosen) {
  const told = (await got("/exercises")).exercises ?? [];
  exercises = Object.fromEntries(told.map((it) => [it.name, it]));
  for (const id of ["exercise", "check", "submit"]) $(id).disabled = !told.length;
  $("exercise").replaceChildren(...told.map((it) => new Option(it.title, it.name)));
  if (chosen) $("exercise").value = chosen;
  if (told.length) showExercise();
  else $("task").textContent = "The class has no exercise yet.";
}

async function hand(path) {
  const exercise = $("exercise").value;
  for (const id of ["check", "submit"]) $(id).disabled = true;
  const told = await post(path, asked({ exercise }));
  if (told.number) await showExercises(exercise);
  for (const id of ["check", "submit"]) $(id).disabled = exercises[exercise].closed && id === "submit";
  const wrong = (it) => [`${it.result}: ${it.remark}`, ...it.sent.map((one) => `after ${one}`), ...it.why].join("\n");
  const rows = (told.tests || []).map((it) => rowOf(it.name, it.result === "ok" ? "ok" : wrong(it)));
  const points = told.error ?? `${told.points} of ${told.of}${rows.length ? "" : `: ${told.remark}`}`;
  $("tests").replaceChildren(...rows, rowOf("points", points));
}

// ---- steps

async function step(how) {
  for (const it of document.querySelectorAll("[data-how]")) it.disabled = true;
  const told = await post("/steps", { how, line: $("at").value });
  for (const it of document.querySelectorAll("[data-how]")) it.disabled = false;
  $("where").textContent = told.error || `after ${told.event} of ${told.events} events: ${told.processes.map((it) => `node ${it.node} ${it.does}${it.line ? ` in line ${it.line}` : ` at ${it.at}`}`).join("; ")}`;
  if (told.error) return;
  $("values").replaceChildren(...told.variables.map((it) => rowOf(it.line ? `${it.name} (line ${it.line})` : it.name, it.value)));
  const here = told.processes.find((it) => it.node === 0 && it.line && it.does === "goes on") ?? told.processes.find((it) => it.node === 0 && it.line);
  editor.marks = here ? { [here.line]: "here" } : {};
  editor.show();
}

// ---- all of it

function prepare() {
  show = tabs($("tabs"), (id) => {
    if (id === "handing" && !$("exercise").options.length) showExercises();
    if (id === "guide" && !$("read").src) $("read").src = "/guide/USER";
    if (id === "stepping" && !$("where").textContent) step("last");
  });
  $("kind").onchange = () => {
    editor.show();
    changed();
  };
  $("version").onfocus = showVersions;
  $("version").onchange = goBack;
  document.onkeydown = (event) => {
    if (event.key === "Enter" && event.ctrlKey) run();
  };
  $("run").onclick = run;
  $("film").onclick = () => {
    $("shown").hidden = false;
    $("shown").src = `/film?${Date.now()}`;
  };
  $("asking").onsubmit = ask;
  $("line").oninput = hint;
  $("line").onkeydown = complete;
  $("exercise").onchange = showExercise;
  $("check").onclick = () => hand("/check");
  $("submit").onclick = () => hand("/submit");
  for (const it of document.querySelectorAll("[data-how]")) it.onclick = () => step(it.dataset.how);
  addEventListener("pagehide", () => {
    if (localStorage.getItem(mine)) fetch("/text", { method: "POST", body: JSON.stringify(asked()), keepalive: true });
  });
}

async function begin() {
  const told = await got("/text");
  if (told.error) {
    $("connection").textContent = told.error;
    setTimeout(begin, MOST_RETRY / 4);
    return;
  }
  mine = `text of ${told.name}`;
  editor = new Editor(changed);
  $("name").textContent = told.name;
  document.title = `${told.name} · Nadzsumek`;
  const held = JSON.parse(localStorage.getItem(mine) ?? "null") ?? told;
  $("kind").value = held.kind ?? "occ";
  editor.put(held.text ?? FIRST);
  prepare();
  showExercises();
  showVersions();
  verbs = await got("/verbs");
  look();
  hear();
}

begin();

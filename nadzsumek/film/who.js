"use strict";
// Draws who there is at a frame: the processes of each node, the text of a program with marks at their lines, and the variables.

const STATES = { "goes on": "running", "is ready": "ready", waits: "waiting" };
const kindOf = (it) => (it.isDead ? "dead" : STATES[it.state] || "waiting");
// the node whose program and variables are shown: that of the event, unless the reader has chosen one
let chosen = 0, isChosen = false;

// What `why` says of a node besides its processes, which are listed.
function whyLines(number, why) {
  const [first, ...rest] = why.split("\n").filter((it) => it && !/^ *The process at /.test(it));
  const does = first && first !== "node " + number + " rests." ? [first.replace(/^node \d+ /, "")] : [];
  return [...does, ...rest.map((it) => it.trim())];
}

const isAlarm = (text) => /deadlock|lost|dropped|halted|nobody will take|in vain/.test(text);

function processShown(number, it) {
  const { place } = it;
  const line = place ? (place.line === undefined ? "" : "line " + place.line +
    (place.instance === undefined ? "" : " (" + place.instance + ")")) : hex(it.address, 8);
  const row = made("div", "process " + kindOf(it), made("i", "dot"), made("b", "", line || hex(it.address, 8)),
    made("code", "", place ? place.text : ""), made("span", "wait", it.wait));
  row.dataset.workspace = hex(it.workspace, 8);
  row.dataset.address = hex(it.address, 8);
  row.title = it.wait + "; workspace " + hex(it.workspace, 8) + ", at " + hex(it.address, 8);
  return row;
}

function nodeWho(state, number, frame) {
  const { facts } = state, { processes, why } = whoAt(facts, number, frame);
  const look = (facts[NODES[number].look] || "").split(" overruns")[0], [kind, fault] = look.split(" ");
  const box = made("div", "who", made("h3", "", "node " + number, made("span", "state " + kind, look)));
  box.dataset.node = number;
  if (kind === "halted" && FAULTS[fault]) box.append(made("div", "alarm", FAULTS[fault]));
  for (const it of processes) box.append(processShown(number, it));
  for (const text of whyLines(number, why)) {
    const isShown = isAlarm(text) || number === chosen || !processes.length;
    if (isShown) box.append(made("div", isAlarm(text) ? "alarm" : "faint", text));
  }
  box.addEventListener("click", () => { [chosen, isChosen] = [number, true]; show(); });
  return box;
}

// The text of a program, with a mark at each line where a process is.
function sourceWho(state, number, frame) {
  const text = story.sources[number];
  const box = made("div", "text");
  const { processes } = whoAt(state.facts, number, frame);
  const at = {};
  for (const it of processes) {
    if (it.place && it.place.line !== undefined) (at[it.place.line] ||= []).push(it);
  }
  text.split("\n").forEach((line, index) => {
    const its = at[index + 1] || [], kind = its.length ? "at " + kindOf(its[0]) : "";
    const dots = its.map((it) => made("i", "dot " + kindOf(it)));
    box.append(made("div", kind, made("span", "number", String(index + 1)), made("span", "dots", ...dots),
      made("span", "", line || " ")));
  });
  return box;
}

// The program of a node: those of others are a click away.
function programShown(state, frame) {
  const nodes = plan.nodes.map((_, number) => number).filter((number) => story.sources[number] !== undefined);
  const tabs = nodes.length > 1 ? nodes.map((number) => {
    const tab = made("button", number === chosen ? "chosen" : "", "node " + number);
    tab.addEventListener("click", () => { [chosen, isChosen] = [number, true]; show(); });
    return tab;
  }) : [];
  const head = made("h2", "", "Program", ...tabs);
  if (story.sources[chosen] === undefined) {
    return [head, made("div", "faint", "The text of the program of node " + chosen + " isn't known: --program gives it.")];
  }
  return [head, sourceWho(state, chosen, frame)];
}

function variablesShown(frame) {
  const { values, changed } = variablesAt(chosen, frame);
  const rows = Object.keys(values).map((name) => {
    const row = made("div", changed[name] === undefined ? "" : "changed", made("span", "", name.split(" ")[0] + " "),
      made("code", "", values[name]));
    row.title = "declared in line " + name.split(" ")[1];
    return row;
  });
  return [made("h2", "", "Variables of node " + chosen), made("div", "values", ...rows)];
}

// What is seen at a glance.
function badges(state, frame) {
  const found = [];
  plan.nodes.forEach((_, number) => {
    const { isDeadlock } = whoAt(state.facts, number, frame), look = state.facts[NODES[number].look] || "";
    if (isDeadlock) found.push(made("span", "badge dead", "deadlock in node " + number));
    if (look.startsWith("halted")) found.push(made("span", "badge fault", "node " + number + " has halted"));
  });
  const ring = ringAt(state.facts, frame);
  if (ring.length) found.push(made("span", "badge dead", "nodes " + ring.join(", ") + " wait for one another: deadlock"));
  if (isAt("loss", frame)) found.push(made("span", "badge loss", "a byte is lost"));
  if (isAt("full", frame)) found.push(made("span", "badge loss", "the room is full"));
  return found;
}

// Keeps the lines of processes in sight.
function scrollTo(box) {
  const text = box.querySelector(".text"), its = box.querySelectorAll(".at");
  if (!text || !its.length) return;
  const first = its[0].offsetTop, end = its[its.length - 1].offsetTop;
  const middle = end - first < text.clientHeight ? (first + end) / 2 : first;
  text.scrollTop = middle - text.clientHeight / 2;
}

function whoShown(state, frame, number) {
  $("badges").replaceChildren(...badges(state, frame));
  $("who").hidden = !story;
  if (!story) return;
  const lane = number >= 0 ? laneOf(number) - plan.hosts.length : -1;
  if (!isChosen && lane >= 0) chosen = lane;
  const unknown = isKnown(frame) ? [] : [made("div", "alarm", "From here on the processes aren't known: lab film --from " +
    told(recordedAt(frame)) + " shows them.")];
  $("processes").replaceChildren(made("h2", "", "Processes"), ...unknown,
    ...(isKnown(frame) ? plan.nodes.map((_, it) => nodeWho(state, it, frame)) : []));
  $("source").replaceChildren(...programShown(state, frame));
  $("variables").replaceChildren(...variablesShown(frame));
  scrollTo($("source"));
}

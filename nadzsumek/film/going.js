"use strict";
// Says what happened at a frame, and goes to others by keys, clicks and the slider.

const nameOf = (port) => "port " + port + (deviceAt(port) ? ", " + deviceAt(port).name : "");

// ---- what happened

let now = 0;
const BUTTONS = document.querySelectorAll("button[data-key]");

function packetText(number) {
  const { packet } = lines[number], outputs = drivenBy(packet).map(nameOf).join(" and ") || "no output";
  const what = packet.byte === undefined ? "an acknowledge" : "the byte " + hex(packet.byte, 2);
  const loss = dropped.has(number) ? "; it was dropped there" : "";
  return " \u2014 " + what + " at " + nameOf(asked[number].number) + ", which drives " + outputs + loss;
}

// Which of a line's Steps a frame did.
function stepsText(number, frame) {
  const line = lines[number], before = recordedAt(firstFrame[number] - 1) - (line.done || 0);
  const from = recordedAt(frame - 1) - before + 1, to = recordedAt(frame) - before;
  const which = from === to ? "Step " + told(from) : "Steps " + told(from) + " to " + told(to) + ", together,";
  return which + " of " + told(line.times) + ", " + line.asks + " = " + line.answer;
}

function eventText(frame) {
  if (frame === 0) return recordedAt(0) === 0 ? "The domain as it was opened." : "The domain where the film begins.";
  const number = lineOf[frame], line = lines[number];
  const who = line.user === undefined ? "the farm" : plan.users[line.user];
  const done = line.times ? stepsText(number, frame) : line.asks + " = " + line.answer;
  const text = "line " + line.line + ", " + who + ": " + done;
  return line.packet ? text + packetText(number) : text;
}

const isAt = (kind, frame) => marks[kind][lastUpTo(marks[kind], frame)] === frame;
const placeOf = (kind, isForward) => {
  const at = lastUpTo(marks[kind], isForward ? now : now - 1);
  return marks[kind][isForward ? at + 1 : at];
};

function show() {
  const state = stateAt(now), number = lineOf[now], change = now > 0 ? changes[now - 1] : {};
  $("slider").value = now;
  $("number").value = recordedAt(now);
  $("event").textContent = eventText(now);
  $("event").className = isAt("fault", now) ? "fault" : isAt("loss", now) ? "loss" : "";
  whoShown(state, now, number);
  $("crossbar").replaceWith(switchShown(state.facts, number));
  $("words").textContent = wordsText(state.facts);
  $("nodes").replaceChildren(...plan.nodes.map((_, node) => nodeShown(state, node, change)));
  $("hosts").replaceChildren(...plan.hosts.map((_, host) => hostShown(state.facts, host, now, change)));
  $("lanes").replaceChildren(timeShown(now));
  BUTTONS.forEach((it) => { it.disabled = TARGETS[it.dataset.key]() === undefined; });
}

// ---- going to frames

let noting;

// Browsers limit how many addresses a page may note in a second, so one is noted when the reader pauses.
function noteAddress() {
  clearTimeout(noting);
  noting = setTimeout(() => history.replaceState(null, "", "#event=" + recordedAt(now)), 200);
}

function go(frame) {
  now = Math.max(0, Math.min(last, frame));
  noteAddress();
  show();
}

const before = (count) => (now > 0 ? Math.max(0, now - count) : undefined);
const behind = (count) => (now < last ? Math.min(last, now + count) : undefined);
const lineBefore = () => {
  if (now === 0) return undefined;
  return lineOf[now] > 0 ? lastFrame(lineOf[now] - 1) : 0;
};
const lineBehind = () => {
  if (now === last) return undefined;
  return now > 0 && now < lastFrame(lineOf[now]) ? lastFrame(lineOf[now]) : lastFrame(lineOf[now] + 1);
};
// where each key leads; nowhere if there is nothing more of its kind
const TARGETS = { ArrowLeft: () => before(1), ArrowRight: () => behind(1), PageUp: () => before(100), PageDown: () =>
  behind(100),
  Home: () => before(last), End: () => behind(last), "Shift+ArrowLeft": lineBefore, "Shift+ArrowRight": lineBehind,
  p: () => (now === begins ? undefined : begins), m: () => placeOf("message", true), M: () => placeOf("message", false),
  d: () => placeOf("dead", true), D: () => placeOf("dead", false),
  f: () => placeOf("fault", true), F: () => placeOf("fault", false), l: () => placeOf("loss", true), L: () =>
    placeOf("loss", false),
  b: () => placeOf("byte", true), B: () => placeOf("byte", false) };

function follow(key) {
  const to = TARGETS[key]();
  if (to !== undefined) go(to);
}

document.addEventListener("keydown", (key) => {
  const name = (key.shiftKey && key.key.startsWith("Arrow") ? "Shift+" : "") + key.key;
  if (!TARGETS[name] || key.ctrlKey || key.metaKey || key.altKey || key.target === $("number")) return;
  key.preventDefault();
  follow(name);
});
BUTTONS.forEach((it) => it.addEventListener("click", () => follow(it.dataset.key)));
$("slider").max = last;
$("slider").addEventListener("input", () => go(Number($("slider").value)));
$("number").addEventListener("change", () => {
  go(frameOfEvent(Number($("number").value.replace(/\D/g, ""))));
  $("number").blur();
});

function stripShown() {
  const canvas = $("strip"), context = canvas.getContext("2d"), style = getComputedStyle(document.documentElement);
  canvas.width = canvas.clientWidth;
  for (const [kind, top, height] of [["message", 0, 3], ["byte", 4, 3], ["loss", 0, 10], ["full", 0, 10], ["dead", 0, 10],
    ["fault", 0, 10]]) {
    context.fillStyle = style.getPropertyValue("--" + (kind === "full" ? "loss" : kind));
    const places = new Set(marks[kind].map((at) => Math.round((at / Math.max(1, last)) * (canvas.width - 16)) + 7));
    for (const at of places) context.fillRect(at, top, 2, height);
  }
}

function readFragment() {
  const wanted = location.hash.replace("#event=", "");
  now = wanted === "last" ? last : wanted === "" ? begins : frameOfEvent(Number(wanted) || 0);
  show();
}

function spanText() {
  const to = recordedAt(last), more = ". The record goes on: --from and --count show other events";
  const goesOn = film.goes_on ? more : ", the end of the record";
  const missing = sources.find((it) => it.node >= plan.nodes.length);
  const wrong = missing ? `. There is no node ${missing.node} for its program` : "";
  const cut = film.is_cut ? ". Its last line is cut, and was left out" : "";
  return `events ${told(recordedAt(0))} to ${told(to)}${goesOn}${cut}${wrong}.`;
}

addEventListener("hashchange", readFragment);
addEventListener("resize", () => { stripShown(); show(); });
matchMedia("(prefers-color-scheme: dark)").addEventListener("change", stripShown);
$("title").textContent = document.title = "The domain of " + plan.users.join(" and ");
$("span").textContent = spanText();
for (const kind of ["fault", "loss", "byte", "dead"]) $("count-" + kind).textContent = told(marks[kind].length);
$("begin").hidden = begins === 0;
if (begins === 0) $("first").textContent = "first";
$("legend").append(...LEGEND.map(([colour, text]) => {
  const it = made("span", "", text);
  it.style.color = `var(${colour})`;
  return it;
}));
$("left").style.setProperty("--across", across.left + across.side * shownPorts.length + 92 + "px");
stripShown();
readFragment();
document.documentElement.dataset.opened = Math.round(performance.now() - began);

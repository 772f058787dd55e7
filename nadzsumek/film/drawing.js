"use strict";
// Draws a frame: the hosts, the nodes and the switch.

const $ = (id) => document.getElementById(id);

// An element with a class, and what is in it: texts and elements.
function made(name, kind, ...inside) {
  const it = document.createElement(name);
  if (kind) it.className = kind;
  it.append(...inside);
  return it;
}

// An element of a drawing.
function drawn(name, values, text) {
  const it = document.createElementNS("http://www.w3.org/2000/svg", name);
  for (const key in values) it.setAttribute(key, values[key]);
  if (text !== undefined) it.textContent = text;
  return it;
}

// Whether a change names a fact of a node or host.
const isTouched = (change, of) => Object.keys(change).some((it) => it.startsWith(of + " "));

// ---- hosts

const letter = (byte) => (byte >= 32 && byte < 127 ? String.fromCharCode(byte) : byte === 10 ? "\u21b5" : "\u00b7");
const printable = (bytes) => bytes.map(letter).join("");

// The last 64 of some bytes, as digits and as letters.
function bytesShown(name, bytes, count, id) {
  const kept = bytes.slice(-64), rest = count - kept.length;
  const above = name + ": " + told(count) + (rest > 0 ? ", the last 64 are" : "");
  const box = made("div", "queue", made("div", "faint", above));
  if (kept.length) box.append(made("pre", "", kept.map((it) => hex(it, 2)).join(" ")),
    made("pre", "faint", printable(kept)));
  box.id = id;
  return box;
}

// What a user wrote or read up to a frame.
function userBytes(name, queue, frame, id) {
  const count = lastUpTo(queue.frames, frame) + 1;
  return bytesShown(name, queue.bytes.slice(Math.max(0, count - 64), count), count, id);
}

function hostShown(facts, number, frame, change) {
  const queue = (name) => bytesOf(facts["host " + number + " " + name] || "");
  const sending = queue("sending"), received = queue("received");
  const port = plan.ports.findIndex((it) => it.host === number), user = plan.users[plan.hosts[number]];
  const box = made("section", isTouched(change, "host " + number) ? "touched" : "",
    made("h2", "", "host " + number + " of " + user + ", port " + port));
  box.append(
    userBytes("written by the user since the first frame", queues.write[number], frame, "written-" + number),
    bytesShown("to be sent or acknowledged", sending, sending.length, "sending-" + number),
    bytesShown("received and not read", received, received.length, "received-" + number),
    userBytes("read by the user since the first frame", queues.read[number], frame, "read-" + number),
  );
  return box;
}

// ---- nodes

const FAULTS = ["", "an address lies outside memory", "there is no operation of this code", "the error flag was set",
  "a process or queue of high priority was asked for", "an instruction named a channel that it can't use"];

// The registers. Those that this frame changed are marked.
function registersShown(registers, number, change) {
  const box = made("div", "registers");
  for (const name of ["Iptr", "A", "W", "B", "O", "C"]) {
    const kind = change[NODES[number].name + name] === undefined ? "" : "changed";
    box.append(made("code", kind, name.padEnd(5) + hex(registers[name], 8)));
  }
  if (registers.Error) box.append(made("code", "halted", "Error is set"));
  return box;
}

// The nearest label and the line of the program, if that of the node is there.
function sourceShown(number, address) {
  if (!hasSources(number)) return [];
  const line = sourceAt(number, address);
  return [made("td", "", line ? labelled(line) : ""), made("td", "", line ? line.text.trim() : "")];
}

// The line of occam at which a node is, if its program is one of occam.
function occamShown(registers, number) {
  const text = occamText(number, registers.Iptr);
  return text ? [made("div", "occam", text)] : [];
}

const codeOf = (facts, number) => (place) => byteAt(facts, number, place);

function codeShown(facts, registers, number) {
  const code = codeOf(facts, number);
  const rows = listing(code, registers).map((it) => {
    const bytes = Array.from({ length: it.next - it.place }, (_, at) => hex(code(it.place + at), 2)).join(" ");
    const own = [made("td", "", hex(START + it.place, 8)), made("td", "", bytes), made("td", "", it.text)];
    return made("tr", it.here ? "here" : "", ...own, ...sourceShown(number, START + it.place));
  });
  return made("table", "", ...rows);
}

// The instructions around an instruction pointer as lines.
const codeLines = (facts, registers, number) => listing(codeOf(facts, number), registers).map((it) => {
  const line = sourceAt(number, START + it.place);
  const beside = line ? "  " + labelled(line) + "  " + line.text.trim() : "";
  return (it.here ? "> " : "  ") + hex(START + it.place, 8) + "  " + it.text + beside;
});

// Lines with a name above them, or none.
function linesShown(name, lines, kind) {
  const box = made("div", "queue", made("div", "faint", name + (lines.length ? "" : ": none")));
  if (lines.length) box.append(made("pre", kind, lines.join("\n")));
  return box;
}

// The first four processes of the queue.
function waitingShown(facts, number) {
  const named = [0, 1, 2, 3].map((place) => facts[NODES[number].name + "waiting " + place]);
  const waiting = named.filter((it) => it).map((it) => {
    const [workspace, instruction] = it.split(" "), line = occamText(number, parseInt(instruction, 16));
    return "W " + workspace + " at " + instruction + (line ? "  " + line : "");
  });
  return linesShown("processes that wait for the processor" + (waiting.length > 3 ? ", the first four" : ""), waiting,
    "waiting");
}

const workspaceShown = (words) => linesShown("words from W on", words, "workspace");

// The links at which something is under way.
function linksShown(facts, number) {
  const links = [0, 1, 2, 3].map((link) => [link, linkText(facts, number, link)]).filter((it) => it[1]);
  return linesShown("links at which something is under way", links.map(([link, text]) => "link " + link + " " + text),
    "links");
}

// What a node does, its memory, and where its links are.
function headShown(look, number, change) {
  const [state, dropping] = look.split(" overruns "), [kind, fault] = state.split(" ").slice(0, 2);
  const touched = isTouched(change, "node " + number) ? "touched" : "";
  const box = made("section", touched, made("h2", "", "node " + number, made("span", "state " + kind, state)));
  const links = plan.ports.map((it, port) => [it, port]).filter(([it]) => it.node === number);
  const places = links.map(([it, port]) => "link " + it.link + " at port " + port).join(", ") || "no link has a port";
  const whole = made("span", "", look);
  whole.id = "look-" + number;
  whole.hidden = true;
  box.append(whole, made("div", "faint", told(plan.nodes[number]) + " bytes; " + places));
  if (dropping && dropping !== "0 0 0 0") {
    const counts = dropping.split(" ").map((it, link) => [it, link]).filter(([it]) => it !== "0");
    box.append(made("div", "booting", "dropped " + counts.map(([it, link]) => it + " by link " + link).join(", ")));
  }
  if (kind === "halted" && FAULTS[fault]) box.append(made("div", "halted", FAULTS[fault]));
  return box;
}

function nodeShown(state, number, change) {
  const { facts } = state, box = headShown(facts[NODES[number].look], number, change);
  const registers = registersOf(facts, number), before = state.before[number], outside = state.outside[number];
  if (registers) {
    box.append(registersShown(registers, number, change), ...occamShown(registers, number),
      codeShown(facts, registers, number),
      waitingShown(facts, number), workspaceShown(workspaceOf(facts, number)));
  }
  if (before) {
    box.append(made("div", "faint", "before it halted"), registersShown(before.registers, number, {}),
      ...occamShown(before.registers, number), codeShown(facts, before.registers, number),
        workspaceShown(before.workspace));
    if (outside) box.append(linesShown("where it was last outside of zeros", codeLines(facts, outside, number),
      "outside"));
  }
  box.append(linksShown(facts, number));
  return box;
}

// ---- the switch

// A full dot where the output is ready, an empty one where it isn't.
function crossing(svg, word, x, y) {
  const fill = word.ready ? "var(--switch)" : "var(--card)", r = across.side < 20 ? 3.5 : 5;
  svg.append(drawn("circle", { cx: x, cy: y, r, fill, stroke: "var(--switch)", "stroke-width": 2 }));
}

// The sizes of the crossbar: the more ports there are, the closer together they are drawn.
const shownPorts = [...usedPorts].sort((a, b) => a - b);
const NARROW = { side: 12, left: 112, kind: "small", low: 2.5 }, BROAD = { side: 20, left: 136, kind: "", low: 6 };
const across = shownPorts.length > 16 ? NARROW : BROAD;
const TALL = across.side < 20 ? 36 : 24;

// The names of a port beside its row and above its column; the numbers above narrow columns take turns in two rows.
function portNamed(svg, port, place) {
  const { side, left, kind, low } = across, at = place * side, device = deviceAt(port), y = TALL + at + side - low;
  const above = TALL - 6 - (side < 20 && place % 2 === 1 ? 12 : 0);
  svg.append(drawn("text", { x: left + at + side / 2, y: above, "text-anchor": "middle", class: kind }, port));
  svg.append(drawn("text", { x: left - 6, y, "text-anchor": "end", class: kind }, port));
  if (device) svg.append(drawn("text", { x: left - 26, y, "text-anchor": "end", class: "faint " + kind }, device.name));
}

function switchShown(facts, number) {
  const { side, left, kind, low } = across, size = side * shownPorts.length;
  const svg = drawn("svg", { width: left + size + 66, height: TALL + size + 2, id: "crossbar" });
  const packet = number >= 0 ? lines[number].packet : undefined, from = packet ? asked[number].number : -1;
  const to = packet ? drivenBy(packet) : [];
  shownPorts.forEach((port, place) => {
    const at = place * side;
    if (port === from) svg.append(drawn("rect", { x: left + at, y: TALL, width: side, height: size,
      fill: "var(--mark)" }));
    if (to.includes(port)) svg.append(drawn("rect", { x: left, y: TALL + at, width: size, height: side,
      fill: "var(--mark)" }));
    portNamed(svg, port, place);
  });
  for (let line = 0; line <= shownPorts.length; line += 1) {
    const d = `M${left} ${TALL + line * side}h${size}M${left + line * side} ${TALL}v${size}`;
    svg.append(drawn("path", { d, stroke: "var(--line)", fill: "none" }));
  }
  shownPorts.forEach((output, row) => {
    const digits = wordAt(facts, output), word = wordOf(digits);
    const y = TALL + row * side, column = shownPorts.indexOf(word.input);
    svg.append(drawn("text", { x: left + size + 6, y: y + side - low, class: "faint " + kind }, digits));
    if (word.connected && column >= 0) crossing(svg, word, left + column * side + side / 2, y + side / 2);
  });
  return svg;
}

function wordsText(facts) {
  const words = plan.ports.map((it, output) => [it.physical, wordAt(facts, output)]).filter((it) => it[1] !== "0");
  return words.sort((a, b) => a[0] - b[0]).map((it) => it.join(":")).join(" ") || "-";
}

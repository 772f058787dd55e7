"use strict";
// Reads the film: its frames, what happened between them, and the domain at a frame. docs/FILM.md describes the JSON.
const began = performance.now();
const film = JSON.parse(document.getElementById("film").textContent);
const { plan, lines, sources } = film;
// a copy of the whole domain is kept at every this many frames
const EACH = 1000;
const START = 0x80000000;

const hex = (number, digits) => number.toString(16).padStart(digits, "0");
const told = (number) => number.toLocaleString("en");

function bytesOf(digits) {
  const bytes = [];
  for (let at = 0; at < digits.length; at += 2) bytes.push(parseInt(digits.slice(at, at + 2), 16));
  return bytes;
}

// ---- frames: frame 0 is the first, frame f is what changes[f - 1] makes of the one before it, and lineOf[f] its line

const changes = [], lineOf = [-1], firstFrame = [];
lines.forEach((line, number) => {
  firstFrame.push(changes.length + 1);
  for (const change of line.then) {
    changes.push(change);
    lineOf.push(number);
  }
});
const last = changes.length;
const lastFrame = (number) => firstFrame[number] + lines[number].then.length - 1;
const recordedAt = (frame) => (frame === 0 ? film.first : changes[frame - 1]).recorded;

// in an ascending list, the last place whose number is at most the given one, or -1
function lastUpTo(list, number) {
  let low = 0, high = list.length;
  while (low < high) {
    const middle = (low + high) >> 1;
    if (list[middle] <= number) low = middle + 1;
    else high = middle;
  }
  return low - 1;
}

// the frame after this number of events, or the nearest one before it
function frameOfEvent(event) {
  let low = 0, high = last;
  while (low < high) {
    const middle = (low + high + 1) >> 1;
    if (recordedAt(middle) <= event) low = middle;
    else high = middle - 1;
  }
  return low;
}

// ---- the domain at a frame: its facts by their names, and what is noted of each node beside them

const REGISTERS = ["Iptr", "W", "A", "B", "C", "O", "Error"];
const NODES = plan.nodes.map((_, number) => {
  const name = "node " + number + " ";
  return { name, look: name + "look", registers: REGISTERS.map((it) => [it, name + it]), blocks: [] };
});

// A value that is an array is the change of a queue: so many bytes leave its front, and these come to its end.
function merge(facts, change) {
  for (const name in change) {
    const it = change[name];
    facts[name] = Array.isArray(it) ? (facts[name] || "").slice(2 * it[0]) + it[1] : it;
  }
}

// The registers of a node, or nothing if it doesn't run.
function registersOf(facts, number) {
  const registers = {};
  for (const [it, name] of NODES[number].registers) registers[it] = facts[name];
  return typeof registers.Iptr === "number" ? registers : undefined;
}

// The words from the workspace on that are there, each by its address.
function workspaceOf(facts, number) {
  const words = [0, 4, 8, 12, 16, 20, 24, 28].map((offset) => [offset, facts[NODES[number].name + "W+" + offset]]);
  const first = facts[NODES[number].name + "W"];
  const there = words.filter((it) => typeof it[1] === "number");
  return there.map(([offset, word]) => hex(first + offset, 8) + "  " + hex(word, 8));
}

// The byte of a node's memory that has `place` bytes before it, if it is known.
function byteAt(facts, number, place) {
  const { name, blocks } = NODES[number], at = place >> 4, digit = 2 * (place & 15);
  // a name is made once, since a film of many Steps asks for few of them again and again
  const block = facts[(blocks[at] ||= name + "memory " + hex(START + 16 * at, 8))];
  return block !== undefined && digit < block.length ? parseInt(block.slice(digit, digit + 2), 16) : undefined;
}

// Notes the registers before a node came to zeros in memory. Each zero is j 0. They are forgotten when it leaves the
// zeros for another byte, and kept when it runs past the end of memory, where no byte is known.
function noteZeros(state, number, old) {
  const byte = byteAt(state.facts, number, state.facts[NODES[number].name + "Iptr"] - START);
  if (byte) state.outside[number] = undefined;
  else if (byte === 0 && old && byteAt(state.facts, number, old.Iptr - START)) state.outside[number] = old;
}

// Notes the registers and the words that a node had before it halted, to be shown as such.
function noteHalt(state, number, old, look) {
  const isHalted = look.startsWith("halted");
  if (look.startsWith("running") || look.startsWith("idle")) return;
  if (old && isHalted) state.before[number] = { registers: old, workspace: workspaceOf(state.facts, number) };
  if (!isHalted) state.before[number] = state.outside[number] = undefined;
}

// Turns a state to the next frame.
function turn(state, change) {
  const { facts } = state, moved = [];
  NODES.forEach((it, number) => {
    const look = change[it.look], next = change[it.registers[0][1]];
    if (look === undefined && next === undefined) return;
    const old = registersOf(facts, number);
    if (look !== undefined) noteHalt(state, number, old, look);
    if (typeof next === "number") moved.push([number, old]);
  });
  merge(facts, change);
  for (const [number, old] of moved) noteZeros(state, number, old);
}

const opened = () => ({ facts: {}, before: [], outside: [] });
const copied = (it) => ({ facts: { ...it.facts }, before: it.before.slice(), outside: it.outside.slice() });
const copies = [];

function stateAt(frame) {
  const nearest = Math.floor(frame / EACH);
  const state = copied(copies[nearest]);
  for (let at = nearest * EACH; at < frame; at += 1) turn(state, changes[at]);
  return state;
}

// ---- what a line asks, and what a packet meets

const asked = lines.map((line) => {
  const [verb, number, byte] = line.asks.split(" ");
  return { verb, number: Number(number), byte: byte === undefined ? number : byte };
});

function deviceAt(port) {
  const { host, node, link } = plan.ports[port] || {};
  if (host !== undefined) return { lane: host, name: "host " + host, host };
  if (node !== undefined) return { lane: plan.hosts.length + node, name: "node " + node + " link " + link };
  return undefined;
}
const isFault = (line) => line.answer.startsWith("fault");
const drivenBy = (packet) => plan.ports.map((_, port) => port).filter((port) => (packet.drives >>> port) & 1);

// the lane of the switch is -1
function laneOf(number) {
  const { verb, number: of } = asked[number];
  if (verb === "write" || verb === "read") return of;
  if (verb === "step" || verb === "look" || verb === "reset") return plan.hosts.length + of;
  if (verb === "move") return (deviceAt(of) || { lane: -1 }).lane;
  return -1;
}

function isByteOfHost(number) {
  const { verb, number: of } = asked[number], { answer, packet } = lines[number];
  if (verb === "write") return answer === "written";
  if (verb === "read") return answer !== "none";
  if (!packet || packet.byte === undefined || answer === "stayed") return false;
  return [of, ...drivenBy(packet)].some((port) => (deviceAt(port) || {}).host !== undefined);
}

// ---- the frames of faults, losses and bytes of hosts; what users wrote and read; the ports that are shown

const marks = { fault: [], loss: [], byte: [] };
const dropped = new Set();
const noBytes = () => plan.hosts.map(() => ({ frames: [], bytes: [] }));
const queues = { write: noBytes(), read: noBytes() };
const usedPorts = new Set(plan.ports.map((_, port) => port).filter((port) => deviceAt(port)));

const wordOf = (digits) => {
  const low = parseInt(digits.slice(-2), 16);
  const input = plan.ports.findIndex((it) => it.physical === (low & 31));
  return { connected: (low & 128) !== 0, ready: (low & 64) !== 0, input };
};
const wordAt = (facts, output) => facts["output " + output + " word"];

function noteWords(change) {
  for (const name in change) {
    if (!name.startsWith("output ")) continue;
    const word = wordOf(change[name]);
    if (word.connected) usedPorts.add(Number(name.split(" ")[1])).add(word.input);
  }
}

// Whether a change has more bytes that a link dropped than a node had before.
const overruns = (look) => look.slice(look.indexOf(" overruns "));
const counted = (look) => overruns(look).split(" ").reduce((sum, word) => sum + (Number(word) || 0), 0);
const hasMore = (change, facts) => NODES.some(({ look }) => {
  const now = change[look], before = facts[look];
  return now !== undefined && overruns(now) !== overruns(before) && counted(now) > counted(before);
});

function noteLine(number, frame, isOverrun) {
  const line = lines[number], { verb, number: of, byte } = asked[number];
  if (isFault(line)) marks.fault.push(frame);
  if (line.answer === "lost" || isOverrun) marks.loss.push(frame);
  if (isOverrun) dropped.add(number);
  if (!isByteOfHost(number)) return;
  marks.byte.push(frame);
  if (verb !== "write" && verb !== "read") return;
  queues[verb][of].frames.push(frame);
  queues[verb][of].bytes.push(parseInt(verb === "write" ? byte : line.answer, 16));
}

(function readAll() {
  const state = opened();
  turn(state, film.first);
  noteWords(film.first);
  copies.push(copied(state));
  changes.forEach((change, index) => {
    const number = lineOf[index + 1], isOverrun = hasMore(change, state.facts);
    turn(state, change);
    noteWords(change);
    if (isOverrun || asked[number].verb !== "step" || isFault(lines[number])) noteLine(number, index + 1, isOverrun);
    if ((index + 1) % EACH === 0) copies.push(copied(state));
  });
})();

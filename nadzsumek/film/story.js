"use strict";
// What the processes of nodes do: who there is at a frame, where each is and what it waits for, as the debugger and `why` say it.

const story = JSON.parse(document.getElementById("story").textContent || "null");
// a copy of the variables is kept at every this many moments
const COPIES = 256;

// For each node its moments: their frames, the processes and what `why` says at each, and copies of the variables.
const WHO = plan.nodes.map((_, number) => {
  const who = { frames: [], processes: [], whys: [], changes: [], copies: [], lanes: [] };
  let processes = [], why = "", variables = {};
  for (const moment of story ? story.nodes[number].moments : []) {
    if (moment.p) processes = moment.p.map((it) => story.rows[it]);
    if (moment.w !== undefined) why = story.whys[moment.w];
    if (who.frames.length % COPIES === 0) who.copies.push({ ...variables });
    if (moment.v) Object.assign(variables, moment.v);
    who.frames.push(moment.f);
    who.processes.push(processes);
    who.whys.push(why);
    who.changes.push(moment.v || {});
    for (const [, , , lane] of moment.p ? processes : []) who.lanes[lane] = lane;
  }
  return who;
});

// Whether the processes are known at a frame.
const isKnown = (frame) => story !== null && (story.known === null || frame <= story.known);
const runs = (row) => row[2] === "goes on";

// The place of the line of occam, or of assembly, at which a process is.
function lineAt(number, address) {
  const it = sourceAt(number, address);
  if (!it) return undefined;
  return { line: it.occam_line, instance: it.instance, text: it.text.trim() };
}

// The channels at links by the names that a program gives them.
const PLACED = plan.nodes.map((_, number) => {
  const text = (story && story.sources[number]) || "", named = {};
  for (const [, name, link, way] of text.matchAll(/PLACE\s+([A-Za-z0-9.]+)\s+AT\s+link(\d)\.(in|out)/g)) {
    named["link " + link + " " + way] = name;
  }
  return named;
});

// What a process waits for, by the names of its channels.
function channelNamed(number, name, way) {
  const placed = PLACED[number][name + " " + (way === "out" ? "out" : "in")];
  return placed ? placed + " (" + name + ")" : name;
}

function waitText(number, row, isDeadlock) {
  const [, , state, , way, ...channels] = row;
  if (state === "goes on") return "goes on";
  if (state === "is ready") return "waits for the processor";
  const names = channels.map((it) => channelNamed(number, it, way)).join(" or ");
  const inside = channels.some((it) => !it.startsWith("link "));
  const what = way === "out" ? "waits to send by " : way === "alt" ? "waits in an ALT for " : "waits to receive by ";
  return what + names + (isDeadlock && inside ? ": nobody comes" : "");
}

// The processes of a node at a frame, each with its address, its line, and what it waits for; and what `why` says.
function whoAt(facts, number, frame) {
  const who = WHO[number], at = lastUpTo(who.frames, frame);
  if (at < 0) return { rows: [], processes: [], why: "", isDeadlock: false };
  const why = who.whys[at], isDeadlock = why.includes("a deadlock");
  const processes = who.processes[at].map((row) => {
    const address = row[1] || facts[NODES[number].registers[0][1]] || 0;
    return { workspace: row[0], address, state: row[2], place: lineAt(number, address),
      wait: waitText(number, row, isDeadlock), isDead: isDeadlock && row[2] === "waits" };
  });
  return { rows: who.processes[at], processes, why, isDeadlock };
}

// The variables of a node at a frame, and those that this frame changed.
function variablesAt(number, frame) {
  const who = WHO[number], at = lastUpTo(who.frames, frame);
  if (at < 0) return { values: {}, changed: {} };
  const values = { ...who.copies[Math.floor(at / COPIES)] };
  for (let it = at - (at % COPIES); it <= at; it += 1) Object.assign(values, who.changes[it]);
  return { values, changed: who.frames[at] === frame ? who.changes[at] : {} };
}

// The frames of messages between processes and of deadlocks, and what each message is.
const messages = story ? story.messages : [];
marks.message = [...new Set(messages.map((it) => it[0]))];
marks.dead = story ? [...new Set(story.deadlocks)] : [];
const begins = story ? story.begin : 0;
const byFrame = new Map(marks.message.map((frame) => [frame, []]));
messages.forEach((it) => byFrame.get(it[0]).push(it));
const messagesAt = (frame) => byFrame.get(frame) || [];
// the last event that the domain may record, and a user's byte for which there was no room
marks.full = lines.map((it, number) => [it, number]).filter(([it, number]) => it.answer === "full" ||
  recordedAt(lastFrame(number)) >= plan.limit).map(([, number]) => lastFrame(number));

// The process that runs at a frame, by its lane; nothing if none does.
function runningAt(number, frame) {
  const at = lastUpTo(WHO[number].frames, frame);
  const row = at < 0 ? undefined : WHO[number].processes[at].find(runs);
  return row ? row[3] : undefined;
}

// The line where a process first waited, or was ready, names its lane; the first process is the main one.
function laneName(number, lane) {
  const who = WHO[number];
  if (lane === 0) return "main";
  for (let at = 0; at < who.frames.length; at += 1) {
    const row = who.processes[at].find((it) => it[3] === lane && it[1]);
    const place = row && lineAt(number, row[1]);
    if (place && place.line !== undefined) return "line " + place.line;
  }
  return "process " + (lane + 1);
}

// ---- nodes that wait for one another by links

// The nodes at the other ends of a link by which a process waits: undefined where a user may send or read, or nothing is joined.
function partners(facts, number, link, way) {
  const port = plan.ports.findIndex((it) => it.node === number && it.link === link);
  const nodeOf = (it) => (it === undefined ? undefined : plan.ports[it].node);
  if (way !== "out") {
    const word = wordOf(wordAt(facts, port));
    return [word.connected && word.input >= 0 ? nodeOf(word.input) : undefined];
  }
  const driven = plan.ports.map((_, output) => output).filter((output) => {
    const word = wordOf(wordAt(facts, output));
    return word.connected && word.input === port;
  });
  return driven.map(nodeOf);
}

// The nodes of which each waits for others of them alone, while nothing is under way: none of them can ever go on.
function ringAt(facts, frame) {
  const looks = NODES.map(({ look }) => facts[look] || "");
  if (!story || looks.some((it) => it.startsWith("running")) || plan.hosts.some((_, it) => facts["host " + it + " sending"])) return [];
  const waits = plan.nodes.map((_, number) => WHO[number].frames.length && looks[number].startsWith("idle")
    ? whoAt(facts, number, frame).rows.filter((it) => it[2] === "waits") : []);
  let ring = plan.nodes.map((_, number) => number).filter((number) => waits[number].length);
  for (let count = -1; count !== ring.length; ) {
    count = ring.length;
    ring = ring.filter((number) => waits[number].every(([, , , , way, ...channels]) => channels.every((name) => {
      if (!name.startsWith("link ")) return true;
      const others = partners(facts, number, Number(name.slice(5)), way);
      return others.length > 0 && others.every((it) => it !== undefined && it !== number && ring.includes(it));
    })));
  }
  const byLinks = (number) => waits[number].some((it) => it.slice(5).some((name) => name.startsWith("link ")));
  return ring.length > 1 && ring.every(byLinks) ? ring : [];
}

// The frame from which nodes wait for one another to the end of the film: after the last line by which something moved, or a few lines
// before it, if these were messages to the switch that others followed.
(function noteRing() {
  if (!story || !isKnown(last) || ringAt(stateAt(last).facts, last).length === 0) return;
  let number = lines.length - 1;
  while (number >= 0 && ["read", "look"].includes(asked[number].verb)) number -= 1;
  const isRing = (it) => ringAt(stateAt(lastFrame(it)).facts, lastFrame(it)).length > 0;
  for (let count = 0; count < 64 && number > 0 && isRing(number - 1); count += 1) number -= 1;
  marks.dead.push(number >= 0 && isRing(number) ? lastFrame(number) : last);
  marks.dead.sort((one, other) => one - other);
})();

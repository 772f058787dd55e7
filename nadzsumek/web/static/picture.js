"use strict";
// A machine as a picture: nodes and hosts, what is joined, and what each node does.

const SVG = "http://www.w3.org/2000/svg";
const WIDE = 132, HIGH = 66, GAP = 22, ACROSS = 4;
const SAID = { runs: "runs", waits: "waits", deadlock: "deadlock", fault: "fault", ended: "has ended", unused: "not used yet", boots: "boots", unknown: "" };

function drawn(kind, words = {}, text) {
  const it = document.createElementNS(SVG, kind);
  for (const [name, value] of Object.entries(words)) it.setAttribute(name, value);
  if (text !== undefined) it.textContent = text;
  return it;
}

function box(x, y, kind, name, said) {
  const group = drawn("g", { class: kind, transform: `translate(${x} ${y})` });
  group.append(drawn("rect", { width: WIDE, height: HIGH, rx: 6 }), drawn("text", { x: WIDE / 2, y: 24 }, name), drawn("text", { x: WIDE / 2, y: 43, class: "said" }, said));
  return group;
}

// Where lines begin and end: each link of a node along its lower edge, and a host in the middle of its upper one.
function placesOf(told) {
  const places = {}, boxes = [], rows = Math.ceil(told.nodes.length / ACROSS);
  told.nodes.forEach((node, at) => {
    const x = (at % ACROSS) * (WIDE + GAP), y = Math.floor(at / ACROSS) * (HIGH + 60);
    boxes.push(box(x, y, `node ${node.state}`, `node ${node.number}`, SAID[node.state]));
    node.links.forEach(({ link }) => (places[`link ${link} of node ${node.number}`] = [x + ((link + 1) * WIDE) / 5, y + HIGH, 1]));
  });
  told.hosts.forEach((host, at) => {
    const x = at * (WIDE + GAP), y = rows * (HIGH + 60);
    boxes.push(box(x, y, "host", `host ${host.number}`, `port ${host.port}`));
    places[`host ${host.number}`] = [x + WIDE / 2, y, -1];
  });
  return { places, boxes, width: Math.min(ACROSS, Math.max(told.nodes.length, told.hosts.length)) * (WIDE + GAP) - GAP, height: rows * (HIGH + 60) + HIGH };
}

function lineOf([x, y, out], [to, down, into], isBoth) {
  const bend = 26;
  const path = drawn("path", { class: "join", d: `M${x} ${y} C${x} ${y + out * bend} ${to} ${down + into * bend} ${to} ${down}`, "marker-end": "url(#arrow)" });
  if (isBoth) path.setAttribute("marker-start", "url(#arrow)");
  return path;
}

function pictureOf(told) {
  const { places, boxes, width, height } = placesOf(told), picture = drawn("svg", { viewBox: `-2 -2 ${width + 4} ${height + 4}`, class: "picture", role: "img" });
  const arrow = drawn("marker", { id: "arrow", viewBox: "0 0 8 8", refX: 7, refY: 4, markerWidth: 7, markerHeight: 7, orient: "auto-start-reverse" });
  arrow.append(drawn("path", { d: "M0 0 L8 4 L0 8 z" }));
  picture.append(drawn("title", {}, told.nodes.map((it) => `node ${it.number} ${SAID[it.state]}`).join(", ")), drawn("defs"));
  picture.lastChild.append(arrow);
  const isJoined = (from, to) => told.joins.some((it) => it.from === from && it.to === to);
  for (const { from, to } of told.joins) {
    const isBoth = isJoined(to, from);
    if (places[from] && places[to] && (!isBoth || from < to)) picture.append(lineOf(places[from], places[to], isBoth));
  }
  picture.append(...boxes);
  picture.style.maxWidth = `${width + 4}px`;
  return picture;
}

// What the processes of a program do, each with its line, or else what is said of the nodes.
function processesOf(told, goTo) {
  return told.nodes.flatMap((node) => {
    const own = node.processes.map((it) => made("li", { class: node.state }, made("button", { type: "button", text: `node ${it.node} ${it.does} in line ${it.line}: ${it.text}`, onclick: () => goTo(it.node, it.line) })));
    const about = node.state === "unused" ? [] : node.told.map((line) => made("li", { class: `told ${line.startsWith(" ") ? "more" : node.state}`, text: line.trim() }));
    return [...own, ...about];
  });
}

"use strict";
// Draws the time line: a column for each line of the record, and for each piece of one in which the same process runs; a lane for the
// switch, each host, each node, and each process of a node that ever had several.

// how many processes of a node have lanes
const MOST_LANES = 24;
const rows = [{ name: "switch" }, ...plan.hosts.map((user, number) => ({ name: "host " + number + " " + plan.users[user] }))];
const nodeRow = [], processRow = plan.nodes.map(() => ({}));
plan.nodes.forEach((_, number) => {
  nodeRow.push(rows.length);
  rows.push({ name: "node " + number });
  const its = WHO[number].lanes.slice(0, MOST_LANES);
  for (const lane of its.length > 1 ? its : []) {
    processRow[number][lane] = rows.length;
    rows.push({ name: "  " + laneName(number, lane), lane });
  }
});
// the names are to the left of the columns, uncut
const WIDE = 28, HIGH = rows.length > 12 ? 18 : rows.length > 8 ? 22 : 30, TOP = 30;
const LEFT = Math.max(130, ...rows.map((it) => 10 + Math.ceil(7.4 * it.name.length)));
const rowAt = (row) => TOP + (row + 0.5) * HIGH;
const laneAt = (lane) => rowAt(lane < 0 ? 0 : lane < plan.hosts.length ? 1 + lane : nodeRow[lane - plan.hosts.length]);
const HEIGHT = TOP + rows.length * HIGH;

// The columns: a line of the record, and the first and the last frame of it or of a piece.
const columns = [];
(function cutLines() {
  const ends = new Set(messages.map((it) => it[0]));
  plan.nodes.forEach((_, number) => {
    let before;
    WHO[number].frames.forEach((frame, at) => {
      const row = WHO[number].processes[at].find(runs), now = row && row[3];
      if (now !== before) ends.add(frame);
      before = now;
    });
  });
  lines.forEach((_, number) => {
    let from = firstFrame[number];
    for (let frame = from; frame < lastFrame(number); frame += 1) {
      if (!ends.has(frame)) continue;
      columns.push({ number, from, to: frame });
      from = frame + 1;
    }
    columns.push({ number, from, to: lastFrame(number) });
  });
})();
const columnFroms = columns.map((it) => it.from);

const short = (number) => (number < 1000 ? String(number) : number < 1e6 ? Math.floor(number / 1e3) + "k"
  : number < 1e9 ? Math.floor(number / 1e6) + "M" : Math.floor(number / 1e9) + "G");

const cross = (svg, x, y, colour) => svg.append(drawn("path", { d: `M${x - 5} ${y - 5}l10 10m0 -10l-10 10`,
  stroke: colour, "stroke-width": 2 }));

function arrow(svg, x, from, to, colour, text) {
  const down = to > from ? 1 : -1;
  const d = `M${x} ${from}V${to - down}M${x - 4} ${to - 7 * down}L${x} ${to}L${x + 4} ${to - 7 * down}`;
  svg.append(drawn("path", { d, stroke: colour, "stroke-width": 2, fill: "none" }));
  if (text) svg.append(drawn("text", { x: x + 4, y: from + down * HIGH * 0.5 + 4, class: "small" }, text));
}

// A packet, from the lane of its port to those of the outputs that the port drives.
function packetDrawn(svg, number, x) {
  const line = lines[number], { byte } = line.packet, from = laneAt(laneOf(number));
  const text = byte === undefined ? "" : hex(byte, 2);
  const isLoss = line.answer === "lost" || dropped.has(number);
  const colour = isLoss ? "var(--loss)" : byte === undefined ? "var(--ack)" : "var(--byte)";
  svg.append(drawn("circle", { cx: x, cy: from, r: 3, fill: colour }));
  if (line.answer !== "passed") {
    if (line.answer === "lost") cross(svg, x, from, colour);
    return;
  }
  for (const port of drivenBy(line.packet)) {
    const to = laneAt((deviceAt(port) || { lane: -1 }).lane);
    if (to === from) svg.append(drawn("circle", { cx: x, cy: from, r: 7, fill: "none", stroke: colour,
      "stroke-width": 2 }));
    else arrow(svg, x, from, to, colour, text);
    if (isLoss) cross(svg, x, to, colour);
  }
}

// A user's byte comes down to the host's lane, or leaves it upwards; it is hollow if it was refused, or there was none.
function hostDrawn(svg, number, x, y) {
  const { verb, byte } = asked[number], { answer } = lines[number], isDone = isByteOfHost(number);
  const d = verb === "write" ? `M${x - 5} ${y - 8}h10l-5 8z` : `M${x - 5} ${y}h10l-5 -8z`;
  svg.append(drawn("path", { d, fill: isDone ? "var(--byte)" : "none", stroke: "var(--byte)" }));
  const text = verb === "write" ? byte : answer;
  if (isDone) svg.append(drawn("text", { x, y: y - 10, "text-anchor": "middle", class: "small" }, text));
}

// The row of the process that runs in a column of Steps; that of its node if it has one alone.
function runnerRow(column) {
  const node = asked[column.number].number, running = runningAt(node, column.from - 1) ?? runningAt(node, column.to);
  return processRow[node][running] ?? nodeRow[node];
}

function stepsDrawn(svg, column, x) {
  const line = lines[column.number], isLast = column.to === lastFrame(column.number), y = rowAt(runnerRow(column));
  const count = recordedAt(column.to) - recordedAt(column.from - 1);
  const isFaulty = isFault(line) && isLast, colour = isFaulty ? "var(--fault)" : "var(--step)";
  const size = count > 1 ? WIDE - 6 : 8;
  svg.append(drawn("rect", { x: x - size / 2, y: y - 4, width: size, height: 8, rx: 2, fill: colour }));
  if (count > 1) svg.append(drawn("text", { x, y: y - 6, "text-anchor": "middle", class: "faint small" }, short(count)));
  for (const it of messagesAt(column.to)) messageDrawn(svg, it, x);
  if (!isFaulty) return;
  svg.append(drawn("path", { d: `M${x} ${TOP}V${HEIGHT}`, stroke: colour, "stroke-dasharray": "3 3" }));
  cross(svg, x, y, colour);
}

// A message inside a node, from the process that sends to the one that receives.
function messageDrawn(svg, [, node, from, to, name], x) {
  const [first, second] = [from, to].map((it) => rowAt(processRow[node][it] ?? nodeRow[node]));
  if (first !== second) arrow(svg, x + WIDE / 2 - 2, first, second, "var(--message)", name.slice(0, 8));
}

function lineDrawn(svg, column, x) {
  const { number } = column, { verb, byte } = asked[number], y = laneAt(laneOf(number));
  if (verb === "move" && lines[number].packet) packetDrawn(svg, number, x);
  else if (verb === "write" || verb === "read") hostDrawn(svg, number, x, y);
  else if (verb === "step") stepsDrawn(svg, column, x);
  else {
    const fill = verb === "config" ? "var(--switch)" : "var(--faint)";
    svg.append(drawn("rect", { x: x - 4, y: y - 4, width: 8, height: 8, fill }));
    const text = verb === "config" ? byte : verb === "reset" ? "res" : verb;
    svg.append(drawn("text", { x, y: y - 8, "text-anchor": "middle", class: "small" }, text.slice(0, 4)));
  }
}

function timeShown(frame) {
  const width = Math.max(600, $("lanes").clientWidth);
  const count = Math.max(1, Math.floor((width - LEFT) / WIDE)), here = frame === 0 ? -1 : lastUpTo(columnFroms, frame);
  const first = Math.max(0, Math.min(here - (count >> 1), columns.length - count));
  const svg = drawn("svg", { width, height: HEIGHT }), x = (number) => LEFT + (number - first) * WIDE + WIDE / 2;
  if (here >= 0) svg.append(drawn("rect", { x: x(here) - WIDE / 2, y: 16, width: WIDE, height: HEIGHT - 16,
    fill: "var(--mark)" }));
  rows.forEach(({ name, lane }, row) => {
    const text = drawn("text", { x: lane === undefined ? 2 : 14, y: rowAt(row) + 4,
      class: lane === undefined ? "" : "faint" }, name.trim());
    svg.append(text, drawn("path", { d: `M${LEFT} ${rowAt(row)}H${width}`, stroke: "var(--line)" }));
  });
  for (let number = first; number < first + count && number < columns.length; number += 1) {
    if (number % 5 === 0) {
      svg.append(drawn("text", { x: x(number) - WIDE / 2 + 2, y: 11, class: "faint small" },
        told(recordedAt(columns[number].to))));
      svg.append(drawn("path", { d: `M${x(number) - WIDE / 2} 4V16`, stroke: "var(--line)" }));
    }
    lineDrawn(svg, columns[number], x(number));
  }
  svg.addEventListener("click", (click) => {
    const number = first + Math.floor((click.offsetX - LEFT) / WIDE);
    if (click.offsetX > LEFT && number < columns.length) go(columns[number].to);
  });
  return svg;
}

const LEGEND = [["--step", "\u25ac Steps, with their number"], ["--message", "\u2193 a message inside a node, with its channel"],
  ["--byte", "\u2193 a byte"],
  ["--byte", "\u25bc \u25b2 a user's write and read"],
  ["--ack", "\u2193 an acknowledge"], ["--loss", "\u00d7 lost or dropped"], ["--fault", "\u00d7 a fault"],
    ["--switch", "\u25a0 a configuration byte"],
  ["--faint", "keys: left and right, with shift by lines, page up and page down by 100"]];

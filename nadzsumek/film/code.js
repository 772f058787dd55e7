"use strict";
// The programs of nodes, their instructions, and what their links do, as texts.

// the line of a node's program that has the byte at an address
const sourceAt = (number, address) =>
  sources.find((it) => it.node === number && it.address <= address && address < it.address + it.length);
const hasSources = (number) => sources.some((it) => it.node === number);
// the number of a line of occam, and in brackets that of the instance which had it put in place
const numbered = (it) => "line " + it.occam_line + (it.instance === undefined ? "" : " (" + it.instance + ")");
function labelled(it) {
  if (it.occam_line !== undefined) return numbered(it);
  return it.label === undefined ? "" : it.label + (it.behind ? "+" + it.behind : "");
}
// where an address is in the text of a program of occam
function occamText(number, address) {
  const line = sourceAt(number, address);
  return line && line.occam_line !== undefined ? numbered(line) + ": " + line.text.trim() : "";
}

// ---- links

const bytesCounted = (count) => count + (count === 1 ? " byte" : " bytes");
const LINK_FACTS = [["sends", (it) => "sends byte " + hex(it, 2)], ["holds", (it) => "holds byte " + hex(it, 2)],
  ["acknowledges", () => "sends an acknowledge"], ["awaits", () => "awaits an acknowledge"],
  ["acknowledged", () => "has an acknowledge"], ["watched", () => "an alternative waits for a byte"],
  ["wanted", (it) => "a process waits for " + bytesCounted(it)],
  ["left", (it) => bytesCounted(it) + " to be sent after that one"]];

// What a link of a node does; nothing if nothing is under way.
function linkText(facts, number, link) {
  const named = LINK_FACTS.map(([name, text]) => [facts[NODES[number].name + "link " + link + " " + name], text]);
  return named.filter((it) => it[0] !== undefined && it[0] !== null).map(([it, text]) => text(it)).join(", ");
}

// ---- instructions

const names = new Map(plan.operations.map((it) => [it.code, it.name]));
const isPrefix = (byte) => byte >> 4 === 2 || byte >> 4 === 6;

// the instruction that begins at a place, and the place after it; nothing if its bytes aren't known
// `code` gives the byte at a place
function instructionAt(code, place) {
  let operand = 0;
  for (let at = place; at < place + 16; at += 1) {
    const byte = code(at);
    if (byte === undefined) return undefined;
    const kind = byte >> 4;
    operand = (operand | (byte & 15)) >>> 0;
    if (kind === 2) operand = (operand << 4) >>> 0;
    else if (kind === 6) operand = (~operand << 4) >>> 0;
    else {
      const isKnown = kind === 15 && names.has(operand);
      const text = isKnown ? names.get(operand) : plan.functions[kind] + " " + (operand | 0);
      return { place, next: at + 1, text };
    }
  }
  return undefined;
}

// the place of the first of the prefixes right before a place
function prefixesBefore(code, end, most) {
  let at = end;
  while (at > end - most && code(at - 1) !== undefined && isPrefix(code(at - 1))) at -= 1;
  return at;
}

// The instructions around the instruction pointer. Only the bytes around it are those of now: 16 before, 32 after.
function listing(code, registers) {
  const here = registers.Iptr - START, lowest = here - 16;
  const begin = registers.O === 0 ? here : prefixesBefore(code, here, 8);
  const found = [];
  for (let end = begin; found.length < 4 && end - 1 >= lowest && code(end - 1) !== undefined &&
    !isPrefix(code(end - 1)); ) {
    const it = instructionAt(code, prefixesBefore(code, end - 1, 8));
    if (!it || it.place < lowest) break;
    found.unshift(it);
    end = it.place;
  }
  for (let at = begin, count = 0; count < 8; count += 1) {
    const it = instructionAt(code, at);
    if (!it || it.next > here + 32) break;
    found.push({ ...it, here: count === 0 });
    at = it.next;
  }
  return found;
}

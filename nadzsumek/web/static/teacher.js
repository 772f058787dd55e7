"use strict";
// The teacher's page: a tile for each student, those who need help first; one student's text, picture and record; what was handed in.

const EACH = 4000;
let chosen = null, isAsking = false;

function tile(it) {
  const more = it.kind === "fresh" || !it.why ? it.told : `${it.told}. ${it.why}`;
  return made("button", { class: `tile ${it.kind}`, type: "button", "aria-pressed": `${it.name === chosen}`, title: it.name, onclick: () => choose(it) }, made("b", { text: it.person }), made("small", { text: more }));
}

function choose(it) {
  chosen = it.name;
  $("shown").hidden = true;
  $("shown").removeAttribute("src");
  for (const one of $("tiles").children) one.setAttribute("aria-pressed", `${one.title === chosen}`);
  show(it).then(() => $("one").scrollIntoView({ block: "nearest" }));
}

// What a student has written, and what the machine does now. None of it is an event of the machine.
async function show(it) {
  const of = encodeURIComponent(it.name), [text, state] = await Promise.all([got(`/text?of=${of}`), got(`/state?of=${of}`)]);
  if (it.name !== chosen) return;
  $("one").hidden = false;
  $("who").textContent = `${it.person} (${it.name}): ${it.told}`;
  $("text").textContent = text.text ?? text.error ?? "no text was kept";
  $("picture").replaceChildren(...(state.picture ? [pictureOf(state.picture)] : []));
  $("why").textContent = state.error ?? state.why.join("\n");
}

async function look() {
  if (isAsking) return;
  isAsking = true;
  const told = await got("/wall");
  isAsking = false;
  $("connection").textContent = told.error ?? "";
  if (told.error) return;
  const focused = document.activeElement?.title;
  $("tiles").replaceChildren(...told.map(tile));
  for (const one of $("tiles").children) if (focused && one.title === focused) one.focus();
  const counts = {};
  for (const it of told) counts[it.kind] = (counts[it.kind] ?? 0) + 1;
  $("counts").textContent = Object.entries(counts).map(([kind, count]) => `${count} ${kind}`).join(", ");
  const it = told.find((one) => one.name === chosen);
  if (it) await show(it);
}

async function showSubmissions() {
  const told = await got("/submissions");
  if (told.error) return;
  $("handed").replaceChildren(...told.map((it) => {
    const read = made("button", { type: "button", text: "Text", onclick: () => {
      chosen = null;
      $("one").hidden = false;
      $("who").textContent = `${it.person}, ${it.exercise}, handed in at ${moment(it.at)}`;
      $("text").textContent = it.text;
      $("picture").replaceChildren();
      $("why").textContent = it.remark;
    } });
    return made("tr", {}, ...[it.person, it.exercise, moment(it.at), `${it.points} of ${it.of}`, it.remark].map((text) => made("td", { text })), made("td", {}, read));
  }));
}

tabs($("tabs"), (id) => id === "submissions" && showSubmissions());
$("film").onclick = () => {
  if (!chosen) return;
  $("shown").hidden = false;
  $("shown").src = `/film?of=${encodeURIComponent(chosen)}&${Date.now()}`;
};
$("leave").onclick = () => {
  chosen = null;
  $("one").hidden = true;
};
look();
setInterval(look, EACH);

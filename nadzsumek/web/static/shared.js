"use strict";
// What both pages use.

const $ = (id) => document.getElementById(id);

function made(kind, words = {}, ...inside) {
  const it = document.createElement(kind);
  for (const [name, value] of Object.entries(words)) {
    if (name in it && typeof value !== "string") it[name] = value;
    else if (name === "text") it.textContent = value;
    else if (name === "class") it.className = value;
    else it.setAttribute(name, value);
  }
  it.append(...inside);
  return it;
}

const rowOf = (head, text) => made("tr", {}, made("th", { text: head, scope: "row" }), made("td", { text: `${text}` }));
const moment = (at) => new Date(at * 1000).toLocaleString();

// What a path answers, or why it doesn't.
async function got(path, words) {
  try {
    const answer = await fetch(path, words);
    return answer.ok ? await answer.json() : { error: await answer.text() };
  } catch {
    return { error: "the server can't be reached: your text stays here, try again in a moment" };
  }
}

const post = (path, asked) => got(path, { method: "POST", body: JSON.stringify(asked) });

// Tabs that the arrow keys go through.
function tabs(list, shown) {
  const all = [...list.querySelectorAll("[role=tab]")];
  const choose = (it) => {
    for (const one of all) {
      one.setAttribute("aria-selected", `${one === it}`);
      one.tabIndex = one === it ? 0 : -1;
      $(one.getAttribute("aria-controls")).hidden = one !== it;
    }
    shown(it.getAttribute("aria-controls"));
  };
  list.onclick = (event) => event.target.role === "tab" && choose(event.target);
  list.onkeydown = (event) => {
    const by = { ArrowRight: 1, ArrowLeft: -1 }[event.key];
    if (!by) return;
    const next = all[(all.indexOf(document.activeElement) + by + all.length) % all.length];
    choose(next);
    next.focus();
  };
  return (id) => choose(all.find((it) => it.getAttribute("aria-controls") === id));
}

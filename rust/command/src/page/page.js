// What the page does: it looks up what is typed in the tables that the proved calls filled when the page was made, lights up the way in
// the tree, zooms the maps, and lists the packets of a trace. It fetches nothing.
"use strict";

const data = JSON.parse(document.getElementById("data").textContent);

// A range of a table holds its first and last number; both are written in hexadecimal there.
for (const box of data.boxes) {
  if (!box.answers) continue;
  box.words = new Map(box.answers.words);
  for (const name of ["memory", "io", "id", "type0", "type1"]) {
    for (const range of box.answers[name]) {
      range.first = BigInt("0x" + range.first);
      range.last = BigInt("0x" + range.last);
    }
  }
}

// The range that holds a number: the tables are in rising order and leave nothing out.
function rangeOf(table, number) {
  let low = 0;
  let high = table.length - 1;
  while (low < high) {
    const middle = (low + high + 1) >> 1;
    if (table[middle].first <= number) low = middle;
    else high = middle - 1;
  }
  return table[low];
}

const upper = (number) => number.toString(16).toUpperCase();

// ---- What is typed ----

// An ID, bus:device.function; an address of up to 16 digits; a header of 24 digits or more. Gives the questions to look up, or says why
// there are none.
function read(text) {
  const id = /^\s*([0-9a-f]{1,2}):([0-9a-f]{1,2})\.([0-7])\s*$/i.exec(text);
  if (id) {
    const [bus, device, number] = [parseInt(id[1], 16), parseInt(id[2], 16), Number(id[3])];
    if (device > 31) return { why: "A device is 00 to 1F." };
    return { questions: idQuestions(BigInt((bus << 8) | (device << 3) | number)) };
  }
  const digits = text.replace(/0x/gi, "").replace(/[\s,_:]/g, "");
  if (digits === "") return { why: "" };
  if (!/^[0-9a-f]+$/i.test(digits)) return { why: "Neither an address, an ID as 03:00.0, nor a header: all of them are hexadecimal." };
  if (digits.length <= 16) return { questions: addressQuestions(BigInt("0x" + digits)) };
  if (digits.length < 24 || digits.length % 2) {
    return { why: digits.length + " digits: an address has up to 16, a header 24 or 32." };
  }
  return headerQuestions(digits.match(/../g).map((pair) => parseInt(pair, 16)));
}

function addressQuestions(address) {
  const questions = [{ asked: "memory " + upper(address), table: "memory", number: address }];
  // I/O requests have addresses of 16 bits that a window or BAR can hold.
  if (address <= 0xffffn) questions.push({ asked: "I/O " + upper(address), table: "io", number: address });
  return questions;
}

const idText = (id) =>
  upper(id >> 8n).padStart(2, "0") + ":" + upper((id >> 3n) & 31n).padStart(2, "0") + "." + (id & 7n);

function idQuestions(id) {
  const hint = "A completion or a message for that ID, or a configuration request of the type that its bus takes.";
  return [{ asked: idText(id), table: "id", number: id, hint }];
}

const MEMORY = { 0: ["MRd", "MWr"], 1: ["MRdLk"] };
const COMPLETIONS = { 10: ["Cpl", "CplD"], 11: ["CplLk", "CplDLk"] };
const NOT_JUDGED = "Of the header only the kind and the address or ID were read; whether it is lawful is not judged here.";

// Kind, and the address or the ID that the header goes by; nothing else of it is read.
function headerQuestions(bytes) {
  const fmt = bytes[0] >> 5;
  const type = bytes[0] & 31;
  const hasData = fmt >> 1;
  const length = fmt & 1 ? 16 : 12;
  const number = (from, to) => bytes.slice(from, to).reduce((sum, byte) => (sum << 8n) | BigInt(byte), 0n);
  const one = (kind, table, value, asked) => ({ questions: [{ asked: kind + " " + asked, table, number: value, hint: NOT_JUDGED }] });
  const unknown = { why: "No kind of header that is carried here; cartsundial decode says more." };
  if (fmt > 3) return unknown;
  if (bytes.length < length) return { why: bytes.length + " bytes: a header of this form has " + length + "." };
  if (MEMORY[type] && MEMORY[type][hasData]) {
    const address = number(8, length);
    return one(MEMORY[type][hasData], "memory", address, upper(address));
  }
  if (type === 2 && length === 12) return one(hasData ? "IOWr" : "IORd", "io", number(8, 12), upper(number(8, 12)));
  if ((type === 4 || type === 5) && length === 12) {
    const target = number(8, 10);
    return one((hasData ? "CfgWr" : "CfgRd") + (type - 4), "type" + (type - 4), target, idText(target));
  }
  if (COMPLETIONS[type] && length === 12) return one(COMPLETIONS[type][hasData], "id", number(8, 10), "for " + idText(number(8, 10)));
  if (type >> 3 === 2 && length === 16) return messageQuestions(hasData ? "MsgD" : "Msg", type & 7, number, one) || unknown;
  return unknown;
}

// By the last three bits of Type: by address, by ID, or one of the ways that need neither.
function messageQuestions(kind, routing, number, one) {
  if (routing === 1) return one(kind, "memory", number(8, 16), upper(number(8, 16)));
  if (routing === 2) return one(kind, "id", number(8, 10), "for " + idText(number(8, 10)));
  if (![0, 3, 4, 5].includes(routing)) return null;
  return { questions: [{ asked: kind, message: String(routing), hint: NOT_JUDGED }] };
}

// ---- The answer, in the words of `cartsundial route` ----

function found(box, question) {
  const { answers } = box;
  if (question.message) return answers.messages[question.message];
  return rangeOf(answers[question.table], question.number);
}

function words(box, answer, number) {
  const title = (record) => box.answers.titles[record - 1];
  if (answer.refused !== undefined) return "refused " + answer.refused + ": " + box.words.get(answer.refused);
  if (answer.every !== undefined) return "every function, " + answer.every + " of them";
  if (answer.port) return "the port that receives it";
  if (answer.unsure) return "not known here: ask cartsundial route";
  let text = "record " + answer.record + ", " + title(answer.record);
  if (answer.bar !== undefined) text += ", BAR " + answer.bar + " + " + upper(number - BigInt("0x" + answer.start));
  if (answer.bridges > 0) {
    text += ", over " + answer.bridges + (answer.bridges === 1 ? " bridge" : " bridges");
    if (answer.over) text += ": " + answer.over.map(title).join(", ");
  }
  return text;
}

function element(name, attributes, ...children) {
  const made = document.createElement(name);
  for (const [key, value] of Object.entries(attributes)) made.setAttribute(key, value);
  made.append(...children);
  return made;
}

const shown = document.getElementById("answer");
const question = document.getElementById("question");

function ask(text) {
  shown.replaceChildren();
  darken();
  const { questions, why } = read(text);
  if (!questions) {
    if (why) shown.append(element("p", { class: "none" }, why));
    return;
  }
  for (const box of data.boxes) {
    if (!box.answers) continue;
    for (const one of questions) show(box, one);
  }
}

function show(box, one) {
  const answer = found(box, one);
  const line = element("p", { class: answer.record ? "some" : answer.every || answer.port ? "some" : "none" });
  if (data.boxes.length > 1) line.append(box.file + ": ");
  line.append(one.asked + ": ", element("span", { class: "found" }, words(box, answer, one.number)));
  if (answer.record) line.append(" ", element("a", { href: "#" + box.prefix + answer.record }, "show in the tree"));
  if (answer.enabled) {
    const other = words(box, answer.enabled, one.number);
    line.append(element("span", { class: "hint" }, "With every command word 0007: " + other + "."));
  }
  if (one.hint) line.append(element("span", { class: "hint" }, one.hint));
  shown.append(line);
  light(box, answer, one);
}

// ---- Light in the tree and the maps ----

function darken() {
  for (const lit of document.querySelectorAll(".owner, .way")) lit.classList.remove("owner", "way");
  for (const needle of document.querySelectorAll(".needle")) needle.remove();
  for (const open of document.querySelectorAll("li[aria-current]")) open.removeAttribute("aria-current");
}

function light(box, answer, one) {
  const mark = (record, name) => {
    const item = document.getElementById(box.prefix + record);
    if (item) item.classList.add(name);
    return item;
  };
  for (const record of answer.over || []) mark(record, "way");
  if (answer.record) {
    const owner = mark(answer.record, "owner");
    if (owner) {
      owner.setAttribute("aria-current", "true");
      reveal(owner);
    }
  }
  if (one.table !== "memory" && one.table !== "io") return;
  const names = one.table === "io" ? ["io"] : ["low", "high"];
  for (const name of names) {
    const map = document.getElementById(box.prefix + "map-" + name);
    if (map) needleIn(map, one.number);
  }
}

// Opens every bridge above.
function reveal(item) {
  for (let above = item.parentElement; above; above = above.parentElement) {
    if (above.tagName === "DETAILS") above.open = true;
  }
}

function needleIn(map, address) {
  const offset = address - BigInt("0x" + map.dataset.base);
  if (offset < 0n || offset >= BigInt(map.dataset.size)) return;
  for (const strip of map.querySelectorAll(".whole, .rows")) {
    const needle = element("i", { class: "needle", "data-at": String(offset), "data-size": "0" });
    strip.append(needle);
  }
  draw(map);
}

// ---- Maps: a window is zoomed into, and back ----

// Puts everything of a map where the part from `from` to `to` has it. Offsets are below 2^52: numbers hold them.
function draw(map) {
  const size = Number(map.dataset.size);
  const [from, to] = [Number(map.dataset.viewFrom), Number(map.dataset.viewTo)];
  for (const part of map.querySelectorAll(".rows [data-at]")) place(part, from, to - from);
  for (const part of map.querySelectorAll(".whole [data-at]")) place(part, 0, size);
  const view = map.querySelector(".view");
  view.style.left = (100 * from) / size + "%";
  view.style.width = "max(4px, " + (100 * (to - from)) / size + "%)";
  view.hidden = from === 0 && to === size;
  const base = BigInt("0x" + map.dataset.base);
  map.querySelector(".axis .first").textContent = upper(base + BigInt(from));
  map.querySelector(".axis .last").textContent = upper(base + BigInt(to) - 1n);
}

function place(part, from, length) {
  const [at, size] = [Number(part.dataset.at), Number(part.dataset.size)];
  const [left, width] = [(100 * (at - from)) / length, (100 * size) / length];
  // What is far outside is cut, so that no number is too large to lay out.
  const start = Math.max(left, -1);
  part.style.left = start + "%";
  part.style.width = Math.min(left + width, 101) - start + "%";
  part.style.display = left > 100 || left + width < 0 || (left + width === 0 && size > 0) ? "none" : "";
  part.classList.toggle("narrow", width < 2);
}

function look(map, from, to) {
  map.dataset.viewFrom = from;
  map.dataset.viewTo = to;
  draw(map);
  // From the part that is used to the whole pool and back; from a window to the part that is used.
  const [start, end] = [map.dataset.from, map.dataset.to];
  const isUsed = String(from) === start && String(to) === end;
  const isAll = start === "0" && end === map.dataset.size;
  const back = map.querySelector(".back");
  back.hidden = isUsed && isAll;
  back.textContent = isUsed ? "whole pool" : "what is used";
}

for (const map of document.querySelectorAll("figure.map")) {
  look(map, Number(map.dataset.from), Number(map.dataset.to));
  map.addEventListener("click", (event) => {
    const target = event.target;
    const { from, to, viewFrom, viewTo, size } = map.dataset;
    if (target.classList.contains("back")) {
      if (viewFrom === from && viewTo === to) look(map, 0, Number(size));
      else look(map, Number(from), Number(to));
    } else if (target.classList.contains("window")) {
      look(map, Number(target.dataset.at), Number(target.dataset.at) + Number(target.dataset.size));
    }
  });
}

// ---- The field ----

document.querySelector("#ask form").addEventListener("submit", (event) => {
  event.preventDefault();
  ask(question.value);
});
document.querySelector("#ask form").addEventListener("reset", () => ask(""));

// A refused board has no owners to ask for.
if (!data.boxes.some((box) => box.answers)) {
  for (const control of document.querySelector("#ask form").elements) control.disabled = true;
}

// page.html#ask=F8100010 asks at once; a link into the tree opens the bridges above.
function byHash() {
  const hash = decodeURIComponent(location.hash.slice(1));
  if (hash.startsWith("ask=")) {
    question.value = hash.slice(4);
    ask(question.value);
  } else if (hash) {
    const target = document.getElementById(hash);
    if (target) {
      reveal(target);
      target.scrollIntoView({ block: "center" });
    }
  }
}
addEventListener("hashchange", byHash);
byHash();

for (const tree of document.querySelectorAll("[data-moved]")) {
  const prefix = tree.closest("section").id.slice(-1);
  for (const record of tree.dataset.moved.split(" ").filter(Boolean)) {
    document.getElementById(prefix + record).classList.add("moved");
  }
}

// Paper shows everything of the tree.
addEventListener("beforeprint", () => {
  for (const closed of document.querySelectorAll(".tree details")) closed.open = true;
});

// ---- The trace: a click lists packets, a few hundred at a time ----

const AT_ONCE = 200;

function traceList() {
  const section = document.querySelector(".listed");
  const [form, body, more] = [section.querySelector("form"), section.querySelector("tbody"), section.querySelector(".more")];
  const heading = section.querySelector("h3");
  let lanes = [];
  let rows = [];
  let next = 0;

  function add() {
    for (const [number, title, place, header] of rows.slice(next, next + AT_ONCE)) {
      const cell = (text, name) => element("td", name ? { class: name } : {}, text);
      body.append(element("tr", {}, cell(String(number)), cell(title), cell(place), cell(header, "mono")));
    }
    next = Math.min(next + AT_ONCE, rows.length);
    more.hidden = next >= rows.length;
    const packets = lanes.reduce((sum, lane) => sum + lane.packets, 0);
    section.querySelector(".how-many").textContent =
      rows.length + " of " + packets + " packets are kept in this page for these records; " + next + " are listed.";
  }

  function list() {
    const wanted = (name, otherwise) => (form[name].value.trim() === "" ? otherwise : Number(form[name].value));
    const [from, to] = [wanted("from", 1), wanted("to", Infinity)];
    rows = lanes.flatMap((lane) => lane.kept).filter(([number]) => number >= from && number <= to);
    rows.sort((one, other) => one[0] - other[0]);
    next = 0;
    body.replaceChildren();
    section.hidden = false;
    add();
  }

  function open(title, chosen, from, to) {
    lanes = chosen;
    heading.textContent = title;
    form.from.value = from || "";
    form.to.value = to || "";
    list();
    heading.focus();
  }

  form.addEventListener("submit", (event) => {
    event.preventDefault();
    list();
  });
  more.addEventListener("click", add);
  const all = data.trace.lanes;
  for (const button of document.querySelectorAll("button[data-lane]")) {
    const lane = all[button.dataset.lane];
    button.addEventListener("click", () => open("Packets " + lane.title, [lane]));
  }
  for (const button of document.querySelectorAll("button[data-refused]")) {
    const number = Number(button.dataset.refused);
    button.addEventListener("click", () => open("Packets refused " + number, all.filter((lane) => lane.refused === number)));
  }
  for (const strip of document.querySelectorAll("svg[data-lane]")) {
    const lane = all[strip.dataset.lane];
    strip.addEventListener("click", (event) => {
      const box = strip.getBoundingClientRect();
      const stretch = Math.floor(((event.clientX - box.left) / box.width) * data.trace.stretches);
      const first = stretch * data.trace.width + 1;
      open("Packets " + lane.title, [lane], first, Math.min(first + data.trace.width - 1, data.trace.packets));
    });
  }
}
if (data.trace) traceList();

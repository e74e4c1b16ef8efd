"use strict";

// The page: the script with its answers at the left, what the model holds at a line at the right.

const MEMORY_BYTES = 64n * BigInt(MEMORY_PIECES);
const WAIT_AFTER_KEY = 250;
// How many lines before a line are looked through for an address of the hart's.
const LOOKED_BACK = 10_000;
// Of a longer script the answers are seen before it is found out what holds at a line, and before stale accesses are looked for.
const LONG = 20_000;
// Of a longer one, before unsettled accesses are looked for, and what is owed at a line.
const SETTLED_LONG = 2_000;
const NEW = "new";

let model = null;
let editor = null;
let own = null;
// The script as it was played, null while its image is refused; what is shown of it, and the script's stale and unsettled accesses, null while they
// aren't known.
let script = null;
let line = 0;
let step = 0;
// The number of the own script that is shown, null where an example is.
let shownOwn = null;
let view = null;
let run = null;
let stale = null;
let unsettled = null;
// Whether there was no memory to know which accesses are unsettled.
let isLost = false;
// Which lines have answers: those before this one were not changed since the script was played.
let fresh = 0;
let follows = true;
let timer = 0;
let stateTimer = 0;
let staleTimer = 0;
let unsettledTimer = 0;
let owedTimer = 0;
let addressTimer = 0;
// The own script's part of the page's address, and the texts that it was made of.
let address = { texts: [], part: null };

/** What is shown of a line: of one with many steps the one of this number, where none is named the last that made an access. */
function viewOf(number, wanted) {
  if (!number || !repeated(script, number)) {
    [run, step] = [null, 0];
    return { script, at: number, isStep: false, name: (it) => `line ${it}` };
  }
  run = run?.of === script && run.line === number ? run : Object.assign(new Run(script, number), { of: script });
  step = Math.max(1, Math.min(wanted || run.last, run.count));
  const name = (it) => (it < number ? `line ${it}` : `line ${number}, step ${it - number + 1}`);
  return { script: run.script, at: number - 1 + step, isStep: true, name };
}

/** The address of a load or a store of the hart's. */
function hartAddress(text) {
  const [first, second] = wordsOf(text);
  return ["load", "store", "put"].includes(first) && /^(0x[0-9a-f]{1,14}|\d{1,17})$/i.test(second ?? "") ? second : null;
}

/** Until an address is typed, the view of memory is where the line's access leads, or where the hart's last one up to it was. */
function followAccesses() {
  const led = /addr=(0x[0-9a-f]+)$/.exec(at("walk-words").lastElementChild?.textContent ?? "")?.[1];
  const last = led ?? script.lines.slice(Math.max(0, line - LOOKED_BACK), line).findLast(hartAddress);
  if (follows && last) {
    at("address").value = `0x${((BigInt(led ?? hartAddress(last)) / 64n) * 64n).toString(16)}`;
  }
}

/** The answer to a line as it is told beside it. */
function told(i) {
  const kind = kindOf(script, i);
  const answer = script.answers[i];
  const wanted = kind === "wrong" ? wantedOf(script.lines[i]) : undefined;
  const tables = stale?.get(i + 1);
  const report = unsettled?.get(i + 1);
  const text = wanted === undefined ? answer : `${answer}  (wanted ${wanted})`;
  const marks = { wrong: "✗ ", passed: "✓ " }[kind] ?? "";
  const judged = tables ? "stale " : report ? "unsettled " : "";
  return {
    kind: [kind, tables && "stale", report && "unsettled"].filter(Boolean).join(" "),
    answer: `${marks}${judged}${text}`,
    title: [text, tables && `stale: the tables said ${tables}`, report && `unsettled: ${report}`].filter(Boolean).join(", "),
  };
}

/** What stands beside a line of the editor. */
function beside(i) {
  const isLine = i < editor.lines.length - 1 || editor.lines[i] !== "";
  const number = isLine ? String(i + 1) : "";
  return script && i < fresh && i < script.answers.length ? { number, ...told(i) } : { number, answer: "", kind: "", title: "" };
}

/** The line that is shown, its answer, and how far it is. */
function showStep() {
  const text = line ? script.lines[line - 1].trim() || "(blank)" : "Before the first line";
  const number = make("span", `${script.stopOf(line)} of ${script.stops.length - 1}  `, "count");
  const answer = line && script.answers[line - 1] ? told(line - 1) : null;
  at("step").replaceChildren(number, line ? `${line}: ${text}` : text, ...(answer ? [make("span", ` → ${answer.answer}`, `answer ${answer.kind}`)] : []));
}

/** How many lines had such an access, or that they are looked for. */
function countOf(found, kind, lacks) {
  return [found ? `${found.size.toLocaleString("en")} ${kind}` : `${lacks} ${kind} accesses`, found?.size ? kind : ""];
}

/** How many lines passed and failed, and how many had a stale access, and one that wasn't settled. */
function showCounts() {
  const { passed, failed } = countsOf(script);
  const counts = [
    [`${passed.toLocaleString("en")} passed`, passed ? "passed" : ""],
    [`${failed.toLocaleString("en")} failed`, failed ? "wrong" : ""],
    countOf(stale, "stale", "looking for"),
    countOf(unsettled, "unsettled", isLost ? "no memory for" : "looking for"),
  ];
  at("counts").replaceChildren(...counts.map(([text, kind]) => make("span", text, kind)));
}

/** Goes on or back by so many stops. */
function move(by) {
  if (!script) {
    return;
  }
  const stop = script.stopOf(line);
  const isBetween = script.stops[stop] !== line && by < 0;
  go(script.stops[Math.max(0, Math.min(stop + by + (isBetween ? 1 : 0), script.stops.length - 1))]);
}

/** Shows what holds after the first `number` lines; after this step of the last of them, where it has many. */
function go(number, wanted = 0) {
  if (!script) {
    return;
  }
  line = Math.max(0, Math.min(number, script.lines.length));
  at("slider").value = script.stopOf(line);
  at("slider").setAttribute("aria-valuetext", line ? `line ${line}` : "start");
  showStep();
  editor.mark(line);
  clearTimeout(stateTimer);
  clearTimeout(owedTimer);
  const isLong = script.lines.length > LONG;
  at("state").ariaBusy = String(isLong);
  if (isLong) {
    stateTimer = setTimeout(() => showLine(wanted), WAIT_AFTER_KEY);
  } else {
    showLine(wanted);
  }
}

/** Shows what holds at the line that is gone to. */
function showLine(wanted) {
  view = viewOf(line, wanted);
  showRun(run, step, view);
  showState(view);
  followAccesses();
  showMemory(view);
  at("state").ariaBusy = "false";
  const isLong = view.at > SETTLED_LONG;
  at("owed-part").ariaBusy = String(isLong);
  if (isLong) {
    owedTimer = setTimeout(() => showOwed(view), 2 * WAIT_AFTER_KEY);
  } else {
    showOwed(view);
  }
  keepLater();
}

function showFault(text) {
  at("fault").textContent = text;
  at("fault").hidden = !text;
}

/** Tells what isn't as the page's address has it, until another script is chosen or this one is changed. */
function showNotice(text) {
  at("notice").textContent = text;
  at("notice").hidden = !text;
  if (text) {
    scrollTo(0, 0);
  }
}

/** The script on its image; null, and the reason is told, where the image is refused. */
function played() {
  let image = null;
  try {
    image = model.assemble(at("image").value);
    return new Script(model, image, editor.text);
  } catch (fault) {
    if (!(fault instanceof Refusal)) {
      throw fault;
    }
    const lacksMemory = fault.message === "out of memory";
    showFault(lacksMemory ? "There is no memory to play this script." : `The image is refused, so no line is answered: ${fault.message}`);
    at("image-part").open ||= !lacksMemory;
    return null;
  }
}

/** Looks for stale accesses, and shows which there are. */
function findStale() {
  stale = staleLines(script);
  editor.refresh();
  showCounts();
}

/** Looks for accesses that weren't settled, and for what lines `owed` are answered. */
function judgeSettled() {
  const found = unsettledLines(script);
  isLost = !found;
  unsettled = found?.reports ?? null;
  found?.owed.forEach((answer, number) => (script.answers[number - 1] = answer));
}

/** The same, and shows it. */
function findUnsettled() {
  judgeSettled();
  editor.refresh();
  showCounts();
  showStep();
}

/** Plays the script anew, and shows what holds at the line that is shown. */
function play() {
  clearTimeout(timer);
  clearTimeout(staleTimer);
  clearTimeout(unsettledTimer);
  clearTimeout(owedTimer);
  clearTimeout(stateTimer);
  keepOwn();
  showFault("");
  script = played();
  [stale, unsettled, isLost, run, view] = [null, null, false, null, null];
  fresh = Infinity;
  at("state").hidden = !script;
  at("counts").hidden = !script;
  saveLinks();
  if (!script) {
    editor.refresh();
    keepLater();
    return;
  }
  if (script.lines.length <= LONG) {
    stale = staleLines(script);
  } else {
    staleTimer = setTimeout(findStale, 3 * WAIT_AFTER_KEY);
  }
  if (script.lines.length <= SETTLED_LONG) {
    judgeSettled();
  } else {
    unsettledTimer = setTimeout(findUnsettled, 4 * WAIT_AFTER_KEY);
  }
  editor.refresh();
  showCounts();
  at("slider").max = script.stops.length - 1;
  go(line, step);
}

/** The links give the script and the image's text as files. */
function saveLinks() {
  const name = shownOwn === null ? at("example").value : "own";
  for (const [id, text, ending] of [["save", editor.text, "script"], ["save-image", at("image").value, "asm"]]) {
    URL.revokeObjectURL(at(id).href);
    at(id).href = URL.createObjectURL(new Blob([text], { type: "text/plain" }));
    at(id).download = `${name}.${ending}`;
  }
  at("save-image").hidden = !at("image").value;
}

/** The choices: one's own scripts, and the examples. */
function listScripts(chosen) {
  const owns = own.scripts.map((_, i) => new Option(own.scripts.length > 1 ? `your own ${i + 1}` : "your own", `own ${i}`));
  at("owns").replaceChildren(...owns, new Option("a new one", NEW));
  at("example").value = chosen;
}

/** Keeps the own script that is shown as it is now. */
function keepOwn() {
  if (shownOwn !== null) {
    own.keep(shownOwn, editor.text, at("image").value);
  }
}

/** Shows a script on the image of this text, at a line. */
function open(text, image, number) {
  editor.text = text;
  at("image").value = image;
  at("image-part").open = false;
  follows = true;
  line = number;
  step = 0;
  play();
}

/** Shows an example at a line, its last one where none is named. */
function show(name, number = Infinity) {
  const example = EXAMPLES.find((it) => it.name === name);
  at("example").value = name;
  shownOwn = null;
  open(example.script, example.image, number);
}

function showOwn(place, number = Infinity) {
  listScripts(`own ${place}`);
  shownOwn = place;
  open(...own.scripts[place], number);
}

/** Shows what is chosen. What was shown is kept, where it is one's own. */
function choose() {
  const chosen = at("example").value;
  const place = /^own (\d+)$/.exec(chosen)?.[1];
  showNotice("");
  keepOwn();
  if (chosen === NEW) {
    showOwn(own.add("", ""));
  } else if (place === undefined) {
    show(chosen);
  } else {
    showOwn(Number(place));
  }
}

/** Keeps in a moment what is shown. */
function keepLater() {
  clearTimeout(addressTimer);
  addressTimer = setTimeout(keepAddress, WAIT_AFTER_KEY);
}

/** Keeps the example or the own script, and the line, in the page's address, except where this names what there isn't. */
async function keepAddress() {
  own.save();
  if (!at("notice").hidden) {
    return;
  }
  const now = line;
  const texts = [editor.text, at("image").value];
  const isOwn = shownOwn !== null;
  if (isOwn && texts.some((it, i) => it !== address.texts[i])) {
    address = { texts, part: await addressOf(...texts) };
  }
  at("too-long").hidden = !isOwn || address.part !== null;
  if (now === line && texts[0] === editor.text) {
    const part = isOwn ? address.part : `example=${at("example").value}`;
    history.replaceState(null, "", part === null ? "#" : `#${part}&line=${now}`);
  }
}

/** Shows what the page's address names. Where there isn't such a thing, it tells so, and shows what it showed, or the first example. */
async function openAddress() {
  keepOwn();
  const named = await addressed(location.hash);
  const standing = at("example").selectedOptions[0]?.label;
  if (named.own) {
    showNotice("");
    showOwn(own.find(...named.own), named.line);
  } else if (named.example) {
    showNotice("");
    show(named.example, named.line);
  } else if (!named.fault || !standing) {
    const first = EXAMPLES.find((it) => it.name === "stale_translation") ?? EXAMPLES[0];
    show(first.name, named.fault ? Infinity : named.line);
  }
  if (named.fault) {
    clearTimeout(addressTimer);
    showNotice(`The page's address ${named.fault}. Shown instead is "${at("example").selectedOptions[0]?.label}".`);
  }
}

/** The text is another from line i on, or the image's text is: what an example was is one's own now. */
function typed(i) {
  if (shownOwn === null) {
    shownOwn = own.add(editor.text, at("image").value);
    listScripts(`own ${shownOwn}`);
  }
  showNotice("");
  fresh = Math.min(fresh, i);
  clearTimeout(timer);
  timer = setTimeout(play, WAIT_AFTER_KEY);
}

function typedImage() {
  typed(0);
  editor.refresh();
}

function setAddress(by) {
  const text = at("address").value.trim();
  if (/^(0x[0-9a-f]+|\d+)$/i.test(text)) {
    const moved = BigInt(text) + by;
    at("address").value = `0x${(moved < 0n ? 0n : moved).toString(16)}`;
  }
  follows = false;
  if (script && view) {
    showMemory(view);
  }
}

function onKey(event) {
  const isField = ["TEXTAREA", "INPUT", "SELECT"].includes(event.target.tagName);
  if (isField || event.ctrlKey || event.altKey || event.metaKey) {
    return;
  }
  const by = { ",": -1, ".": 1, Home: -Infinity, End: Infinity }[event.key];
  if (by !== undefined) {
    event.preventDefault();
    move(by);
  }
}

function changeTheme() {
  const { dataset } = document.documentElement;
  const isDark = dataset.theme ? dataset.theme === "dark" : matchMedia("(prefers-color-scheme: dark)").matches;
  dataset.theme = isDark ? "light" : "dark";
}

/** A line that is clicked is shown, where it has been played as it stands. */
function clicked(number) {
  if (number - 1 < fresh) {
    go(number);
  }
}

function listen() {
  editor = new Editor(at("editor"), { beside, changed: typed, clicked });
  at("examples").append(...EXAMPLES.map((it) => new Option(it.name.replaceAll("_", " "), it.name)));
  listScripts("");
  at("example").addEventListener("change", choose);
  at("image").addEventListener("input", typedImage);
  at("slider").addEventListener("input", () => go(script.stops[at("slider").value]));
  for (const [id, by] of [["first", -Infinity], ["back", -1], ["forward", 1], ["last", Infinity]]) {
    at(id).addEventListener("click", () => move(by));
  }
  at("run-step").addEventListener("input", () => go(line, Number(at("run-step").value)));
  at("run-back").addEventListener("click", () => go(line, Math.max(1, step - 1)));
  at("run-forward").addEventListener("click", () => go(line, step + 1));
  at("address").addEventListener("input", () => setAddress(0n));
  at("below").addEventListener("click", () => setAddress(-MEMORY_BYTES));
  at("above").addEventListener("click", () => setAddress(MEMORY_BYTES));
  at("theme").addEventListener("click", changeTheme);
  window.addEventListener("hashchange", openAddress);
  window.addEventListener("pagehide", () => (keepOwn(), own.save()));
  document.addEventListener("keydown", onKey);
}

/** Tells why nothing can be shown. */
function refuse(text) {
  showFault(text);
  at("main").hidden = true;
}

async function start() {
  if (typeof MODULE === "undefined" || typeof EXAMPLES === "undefined") {
    refuse("This page isn't built: it lacks the model. Run 'make page' in the repository, and open web/out/index.html.");
    return;
  }
  own = new Own();
  listen();
  try {
    model = await Model.open(MODULE);
  } catch (fault) {
    refuse(`The model can't run here. It needs a browser with WebAssembly's 64-bit memory, as Chromium from version 133 or Firefox from 134 on. (${fault.message})`);
    return;
  }
  await openAddress();
  document.body.dataset.ready = "yes";
}

start();

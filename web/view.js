"use strict";

// What holds at a step, drawn at the right of the page. A view is a script, the number of a line in it, and how its lines are named.

const at = (id) => document.getElementById(id);
const MEMORY_PIECES = 4;
const SHOWN_OWED = 16;
// A request that is owed whose invalidation was made, but isn't fenced yet.
const UNFENCED = /isn't fenced yet$/;
// Operands that are 0 or 1, and those that are small numbers: both are told in decimal.
const DECIMAL = /\b(on|av|pscv|gv|dv|wsi|pr|pw|pv|priv|dtf|tav|global|level|cause)=0x([0-9a-f]+)/g;

// What is shown, by question: for tests.
let shown = new Map();

function make(name, text, classes = "") {
  const made = document.createElement(name);
  made.textContent = text;
  if (classes) {
    made.className = classes;
  }
  return made;
}

/** A row of a table. */
function row(cells, classes, kind = "td") {
  const made = make("tr", "", classes);
  made.append(...cells.map((it) => make(kind, it)));
  made.querySelectorAll("th").forEach((it) => (it.scope = "col"));
  return made;
}

function tell(question, answer) {
  shown.set(question, answer);
  return answer;
}

/** An answer with its flags, levels and causes in decimal. */
function readable(answer) {
  return answer.replace(DECIMAL, (_, key, digits) => `${key}=${Number.parseInt(digits, 16)}`);
}

function yesNo(flag) {
  return Number(flag) ? "yes" : "no";
}

/** What the tables say now, where that isn't what a place holds: of several operands those that differ. */
function standing(place, answer) {
  const held = operandsOf(place);
  const told = Object.entries(operandsOf(answer)).filter(([key, value]) => held[key] !== value);
  const now = told.length ? told.map((it) => it.join("=")).join(" ") : answer;
  return answer === "same" || answer === "empty" ? "" : `stale: ${readable(now)}`;
}

function stage(mode, root) {
  return mode === "Bare" ? mode : `${mode} at page ${root}`;
}

/** The places of a cache as a table: `cells` makes a place's own cells from its operands. */
function showCache(table, kind, heads, cells, fillers, told, view) {
  const rows = [];
  for (let i = 0; ; i += 1) {
    const question = `place ${kind} ${i}`;
    const answer = told.get(question);
    if (answer === undefined || answer === "none") {
      break;
    }
    tell(question, answer);
    const now = standing(answer, tell(`stale ${kind} ${i}`, told.get(`stale ${kind} ${i}`)));
    const filled = fillers[i] ?? 0;
    const filler = filled ? view.name(filled) : "earlier";
    if (answer === "empty") {
      rows.push(row([i, filler, "empty", ...heads.slice(1).map(() => ""), ""], "empty"));
    } else {
      const classes = [now && "stale", filled === view.at && "used"].filter(Boolean).join(" ");
      rows.push(row([i, filler, ...cells(operandsOf(answer)), now], classes));
    }
  }
  table.replaceChildren(row(["place", "filled by", ...heads, "the tables now say"], "", "th"), ...rows);
  if (!rows.length) {
    table.replaceChildren(row(["Nothing is cached."], "none"));
  }
}

function showCaches(state, view) {
  const isExtended = CONTEXT_QUESTIONS.some((it) => state.told.get(it)?.includes(" msimode="));
  const contextHeads = ["device", "first stage", "second stage", ...(isExtended ? ["MSI page table"] : []), "pscid", "gscid"];
  const files = (it) => (isExtended ? [Number(it.msimode) ? `at page ${it.msippn}` : "Off"] : []);
  const stages = (it) => [stage(FIRST_MODES[Number(it.mode)], it.ppn), stage(SECOND_MODES[Number(it.gmode)], it.gppn), ...files(it)];
  const contextCells = (it) => [it.did, ...stages(it), it.pscid, it.gscid];
  showCache(at("contexts"), "context", contextHeads, contextCells, state.fillers.contexts, state.told, view);
  const pageHeads = ["device", "pscid", "gscid", "page", "kind", "frame", "level", "global"];
  const pageCells = (it) => [it.did, it.pscid, it.gscid, it.page, it.kind, it.frame, it.napot ? "0, of 64 KiB" : Number(it.level), yesNo(it.global)];
  showCache(at("pages"), "page", pageHeads, pageCells, state.fillers.pages, state.told, view);
}

/** How many of a queue's items aren't shown: before those that are, and of those that wait. */
function leftOut(items, { head, tail, entries }) {
  const waiting = (tail - head + entries) % entries;
  const done = items.filter((it) => !it.waits).length;
  return { before: head - done, waiting: waiting - (items.length - done), all: waiting };
}

function showQueue(name, kind, items, told) {
  const { on, base, stop, ...places } = operandsOf(tell(`queue ${kind}`, told.get(`queue ${kind}`)));
  const [head, tail, entries] = [places.head, places.tail, places.entries].map(Number);
  const isOn = on === "0x1";
  // Of a queue that is off, and whose entries lie where there is no memory, nothing is to be seen.
  const seen = isOn || items.some((it) => told.get(it.question) !== "outside") ? items : [];
  const left = leftOut(seen, { head, tail, entries });
  const wait = seen.length && left.all ? `; ${counted(left.all, "entry waits", "entries wait")}${left.waiting ? `, the first ${left.all - left.waiting} are shown` : ""}` : "";
  const state = isOn ? `on at ${base}, ${counted(entries, "entry", "entries")}` : "off";
  at(`${name}-note`).textContent = `${state}; head ${head}, tail ${tail}${wait}${stop === "none" ? "" : `; stopped: ${stop}`}`;
  const entry = (index, text, classes) => {
    const ends = [index === head && "head", index === tail && "tail"].filter(Boolean).join(" ");
    return make("li", `${(ends && `${ends} →`).padStart(11)} ${String(index).padStart(3)}  ${text}`, classes);
  };
  const more = (count, which) => (count > 0 ? [make("li", `${" ".repeat(11)}   …  ${counted(count, "entry", "entries")} ${which}`, "more")] : []);
  const rows = seen.map((it) => entry(it.index, readable(tell(it.question, told.get(it.question))), it.waits ? "waiting" : "done"));
  if (seen.length) {
    rows.unshift(...more(left.before, "before, taken already"));
    rows.push(...more(left.waiting, "more that wait"));
  }
  if (isOn && !seen.some((it) => it.index === tail)) {
    rows.push(entry(tail, "", "done"));
  }
  at(name).replaceChildren(...rows);
}

/** The messages that are kept, the last that were sent: the oldest is 0. */
function showMessages(told) {
  const lines = range(MESSAGES, (i) => [`message ${i}`, told.get(`message ${i}`)]).filter(([, answer]) => answer !== "none");
  at("messages-part").hidden = !lines.length;
  at("messages").replaceChildren(...lines.map(([question, answer], i) => make("li", `${String(i).padStart(2)}  ${tell(question, answer)}`)));
}

function showDevices(told) {
  const lines = range(DEVICES, (i) => [`dev show ${i}`, told.get(`dev show ${i}`)]).filter(([, answer]) => answer !== "none");
  at("devices-part").hidden = !lines.length;
  at("devices").replaceChildren(...lines.map(([question, answer], i) => make("li", `${i}  ${tell(question, answer)}`)));
}

/** Where the picture is wider than its place, the part that decided is seen. */
function scrollToDeciding() {
  const place = at("walk").getBoundingClientRect();
  const box = at("walk").querySelector(".decides rect").getBoundingClientRect();
  at("walk").scrollLeft += Math.max(0, box.right + 8 - place.right);
}

function showWalk(view) {
  const access = view.script.access(view.at);
  at("walk").replaceChildren();
  at("walk-words").replaceChildren();
  if (!access) {
    at("walk-note").textContent = `This ${view.isStep ? "step" : "line"} is no access of a device.`;
    return;
  }
  const told = view.script.walk(view.at, access);
  const parts = [];
  for (const [question, answer] of told) {
    tell(question, answer);
    if (question.startsWith("walk")) {
      parts.push(answer);
    }
  }
  const isStale = (told.get(`stale ${access.kind} ${access.did} ${access.iova}`) ?? "same") !== "same";
  const leads = `What leads a ${access.kind} of device ${access.did} at ${access.iova} by the tables just before this ${view.isStep ? "step" : "line"}.`;
  at("walk-note").textContent = isStale ? `${leads} Something cached led it elsewhere.` : leads;
  if (parts.length) {
    at("walk").append(drawWalk(parts));
    scrollToDeciding();
    at("walk-words").append(...parts.map((it) => make("li", readable(it))));
  }
}

/** Why an access is denied, by its cause. */
function denialText(cause) {
  const texts = {
    5: "access fault, an entry of a page table lies outside memory",
    7: "access fault, an entry of a page table lies outside memory",
    13: "page fault of the first stage",
    15: "page fault of the first stage",
    21: "guest page fault, one of the second stage",
    23: "guest page fault, one of the second stage",
    256: "the mode of ddtp is Off",
    257: "an entry of the directory or a context lies outside memory",
    258: "an entry of the directory or a context has V = 0",
    259: "an entry of the directory or a context is misconfigured",
    260: "the device id is wider than the levels of the directory",
    261: "an entry of an MSI page table lies outside memory",
    262: "an entry of an MSI page table has V = 0, or C = 1",
    263: "an entry of an MSI page table is misconfigured",
  };
  return texts[cause] ? `Denied: ${texts[cause]}.` : "Denied.";
}

/** Where a translation came from, in words. */
function originText(origin, view) {
  const { context, walk, current } = operandsOf(origin);
  const name = (number) => view.name(Number(number));
  if (walk) {
    const force = current === context ? "" : `; the context in force is that of ${name(current)}`;
    return `Translated as the tables stood at ${name(walk)}, under the context that ${name(context)} cached${force}.`;
  }
  const cause = /denied (\d+)$/.exec(view.script.answers[view.at - 1])?.[1];
  const texts = { register: "Not translated: the mode of ddtp is Bare.", denied: denialText(cause), "no access": "No access." };
  return texts[origin] ?? `Not translated: both stages are Bare in the context that ${name(origin.replace("context ", ""))} cached.`;
}

/** Why the last step went so, where this line was an access. */
function showWhy(told, view) {
  const why = at("why");
  why.replaceChildren();
  if (!mayFill(view.script.lines[view.at - 1] ?? "") || view.script.answers[view.at - 1] === "bad") {
    return;
  }
  const last = range(LAST_STEPS, (i) => `why ${i}`).findLast((question) => told.get(question) !== "none");
  if (!last) {
    return;
  }
  const [origin, stale] = tell(last, told.get(last)).split(" stale ");
  why.append(originText(origin, view));
  if (stale) {
    why.append(make("span", ` Stale: the tables said ${stale}.`, "stale"));
  }
}

/** A text with its lines named as a view names them. */
function named(text, view) {
  return text.replace(/\bline (\d+)/g, (_, number) => view.name(Number(number)));
}

/** What is owed behind a view's line, and where its last access may be led that wasn't settled. */
function showOwed(view) {
  const settled = view.script.settled(view.at);
  if (settled?.report) {
    at("why").append(make("span", ` Unsettled: ${named(settled.report, view)}.`, "unsettled"));
  }
  const owed = settled?.owed ?? [];
  const waiting = owed.filter((it) => UNFENCED.test(it)).length;
  const fence = waiting ? ` For ${waiting === owed.length ? "each" : waiting} of them the invalidation waits for its fence.` : "";
  const many = `${counted(owed.length, "request")} that an IOMMU may still lead elsewhere than the tables do.${fence}`;
  const note = owed.length ? many : "Nothing: each IOMMU leads the requests so far where the tables do.";
  at("owed-note").textContent = settled ? note : "There is no memory to know it.";
  at("owed").replaceChildren(...owed.slice(0, SHOWN_OWED).map((it) => make("li", named(it, view), UNFENCED.test(it) ? "unfenced" : "")));
  if (owed.length > SHOWN_OWED) {
    at("owed").append(make("li", `…  ${counted(owed.length - SHOWN_OWED, "request")} more`, "more"));
  }
  at("owed-part").ariaBusy = "false";
}

/** Of a line of many steps which of them is shown, and what all were. */
function showRun(run, step, view) {
  at("run").hidden = !run;
  if (run) {
    at("run-answer").textContent = `${view.script.lines[view.at - 1]} → ${view.script.answers[view.at - 1]}`;
    at("run-text").textContent = run.text;
    at("run-step").max = run.count;
    at("run-step").value = step;
    at("run-count").textContent = `of ${run.count}`;
  }
}

function memoryRows(answers, from) {
  const rows = [];
  let place = from;
  for (const answer of answers) {
    if (answer === "outside" || answer === "bad") {
      rows.push(make("div", `0x${place.toString(16)}  ${answer === "bad" ? "no address" : answer}`, "zero"));
      place += 64n;
      continue;
    }
    for (let i = 0; i < 128; i += 32) {
      const bytes = answer.slice(i, i + 32);
      const text = bytes.replace(/../g, "$& ").replace(/^(.{24})/, "$1 ");
      rows.push(make("div", `0x${place.toString(16)}  ${text}`, /^0*$/.test(bytes) ? "zero" : ""));
      place += 16n;
    }
  }
  return rows;
}

function showMemory(view) {
  const text = at("address").value.trim();
  if (!/^(0x[0-9a-f]+|\d+)$/i.test(text)) {
    at("memory").replaceChildren(make("div", "An address is a number, as 0x80000000.", "zero"));
    return;
  }
  const from = (BigInt(text) / 64n) * 64n;
  const told = view.script.memory(view.at, from, MEMORY_PIECES);
  told.forEach((answer, question) => tell(question, answer));
  at("memory").replaceChildren(...memoryRows(told.values(), from));
}

/** All that holds at a view's line. */
function showState(view) {
  shown = new Map();
  const state = view.script.state(view.at);
  showWhy(state.told, view);
  showWalk(view);
  showCaches(state, view);
  showQueue("commands", "cmd", state.commands, state.told);
  showQueue("faults", "fault", state.faults, state.told);
  showMessages(state.told);
  showDevices(state.told);
}

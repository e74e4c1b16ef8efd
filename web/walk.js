"use strict";

// The walk of an access as a picture, to be read as a text is: the directory in the first row, then the tables, each row from left to right.
// Where there are two stages, a row has the second stage's entries that lead to a place, and behind them the entry of the first stage there.
// An entry of an MSI page table stands in place of the second stage's.

const SVG = "http://www.w3.org/2000/svg";
const BOX_WIDTH = 176;
const BOX_LETTERS = 22;
const LINE_HEIGHT = 15;
const BETWEEN = 22;
const ROWS_APART = 40;
const FLAGS = ["V", "R", "W", "X", "U", "G", "A", "D"];
// The rows of the table of entries that name the bit that is 0.
const LACKING = ["U", "R", "W", "A", "D"];
const DIRECTORY_MODES = ["Off", "Bare", "one level", "two levels", "three levels"];

/** A part of a walk: its kind (ddtp, dir, context, first, second, msi or end), its text, and its operands by name. */
function walkPart(text) {
  const kind = /^(ddtp|dir|context(?= at)|first|second|msi)\b/.exec(text)?.[1] ?? "end";
  const operands = {};
  for (const [, key, value] of text.matchAll(/(\w+)=(\S+)/g)) {
    operands[key] ??= value;
  }
  return { kind, text, operands, isWide: text.endsWith(" width") };
}

/** Whether a part is an entry of the second stage, or the one of an MSI page table in place of it. */
function isOfSecond(part) {
  return part.kind === "second" || part.kind === "msi";
}

/** The parts in rows. */
function walkRows(parts) {
  const start = parts.findIndex((it) => it.kind === "first" || isOfSecond(it));
  if (start < 0) {
    return [parts];
  }
  const tables = parts.slice(start);
  const hasBoth = tables.some((it) => it.kind === "first") && tables.some((it) => it.kind === "second");
  const rows = [parts.slice(0, start), []];
  for (const part of tables) {
    rows.at(-1).push(part);
    if (hasBoth && part.kind === "first") {
      rows.push([]);
    }
  }
  return rows.filter((row) => row.length);
}

/** The part that decided how the walk ended. An entry that can't be read by a fault of the guest was refused by the second stage. */
function decidingPart(parts) {
  const last = parts.length - 2;
  const isGuest = last > 0 && parts[last].text.endsWith(" guest fault") && parts[last - 1].kind === "second";
  return parts[isGuest ? last - 1 : last];
}

function isRefused(end) {
  return end.text.startsWith("denied");
}

/** Words in lines of a box. */
function wrapped(text) {
  const lines = [];
  for (const word of text.split(" ").filter(Boolean)) {
    const last = lines.at(-1);
    if (last !== undefined && last.length + word.length < BOX_LETTERS) {
      lines[lines.length - 1] = `${last} ${word}`;
    } else {
      lines.push(word);
    }
  }
  return lines;
}

/** An entry of a page table: its number, its flags by name, and what the table of entries says of it. */
function entryLines({ text, operands }) {
  const ruling = text.replace(/^.*(?:flags|in|at)=\S+ /, "");
  const told = LACKING.includes(ruling) ? `${ruling}=0` : ruling;
  if (operands.ppn === undefined) {
    return wrapped(told);
  }
  const flags = FLAGS.filter((_, bit) => (Number(operands.flags) >> bit) & 1).join("");
  return [`ppn=${operands.ppn}`, `flags=${operands.flags} ${flags}`, ...wrapped(told)];
}

function contextLines(text, operands) {
  if (operands.ppn === undefined) {
    return wrapped(text.replace(/^context at=\S+ (context )?/, ""));
  }
  const stages = [
    ["first", FIRST_MODES[Number(operands.mode)], operands.ppn],
    ["second", SECOND_MODES[Number(operands.gmode)], operands.gppn],
  ];
  const told = stages.flatMap(([stage, mode, root]) => [`${stage} stage ${mode}`, ...(mode === "Bare" ? [] : [`  root page ${root}`])]);
  const files = Number(operands.msimode) ? ["MSI page table", `  at page ${operands.msippn}`] : [];
  return [...told, ...files, ...wrapped(`pscid=${operands.pscid} gscid=${operands.gscid}`)];
}

/** The lines of a box; the first is its title. */
function boxLines(part) {
  const { kind, text, operands, isWide } = part;
  const titles = { ddtp: "ddtp", dir: "Directory", context: "Device context", first: "First stage", second: "Second stage", msi: "MSI page table" };
  if (isWide) {
    return [titles[kind], ...wrapped(text.replace(/^\w+ (.*) width$/, "$1 too wide"))];
  }
  if (kind === "ddtp") {
    return [titles.ddtp, `mode ${DIRECTORY_MODES[Number(operands.mode)]}`, `root page ${operands.root}`];
  }
  if (kind === "dir") {
    return [titles.dir, `at ${operands.at}`, ...wrapped(text.replace(/^dir at=\S+ (dir )?/, ""))];
  }
  if (kind === "context") {
    return [titles.context, `at ${operands.at}`, ...contextLines(text, operands)];
  }
  if (kind === "end") {
    return [isRefused(part) ? "Denied" : "Granted", ...wrapped(text.replace(/^denied (\d+)/, "cause $1"))];
  }
  if (kind === "msi") {
    return [titles.msi, `at ${operands.at}`, ...entryLines(part)];
  }
  const isGuest = kind === "first" && operands.in !== operands.at;
  const places = isGuest ? [`guest ${operands.at}`, operands.in === "-" ? "nowhere" : `at ${operands.in}`] : [`at ${operands.at}`];
  return [`${titles[kind]}, level ${Number(operands.level)}`, ...places, ...entryLines(part)];
}

function element(name, attributes, ...children) {
  const made = document.createElementNS(SVG, name);
  for (const [key, value] of Object.entries(attributes)) {
    made.setAttribute(key, value);
  }
  made.append(...children);
  return made;
}

/** Where each box stands: in the columns of its row, an entry of the first stage and the end behind the widest row's second stage. */
function placedBoxes(rows) {
  const widest = Math.max(0, ...rows.slice(1).map((row) => row.filter(isOfSecond).length));
  const hasBoth = rows.length > 2;
  const boxes = [];
  let y = 2;
  rows.forEach((row, number) => {
    const lines = row.map(boxLines);
    row.forEach((part, i) => {
      const column = hasBoth && number > 0 && !isOfSecond(part) ? widest : i;
      boxes.push({ part, row: number, lines: lines[i], x: column * (BOX_WIDTH + BETWEEN) + 2, y, height: lines[i].length * LINE_HEIGHT + 12 });
    });
    y += Math.max(...lines.map((it) => it.length)) * LINE_HEIGHT + 12 + ROWS_APART;
  });
  return { boxes, height: y - ROWS_APART + 2, width: Math.max(...boxes.map((it) => it.x)) + BOX_WIDTH + 2 };
}

function drawBox({ part, lines, x, y, height }, classes) {
  const group = element("g", { class: classes });
  group.append(element("title", {}, part.text), element("rect", { x, y, width: BOX_WIDTH, height, rx: 5 }));
  lines.forEach((line, i) => {
    const kind = i === 0 ? "title" : i === lines.length - 1 ? "verdict" : "";
    group.append(element("text", { x: x + 8, y: y + 17 + i * LINE_HEIGHT, class: kind }, line));
  });
  return group;
}

/** An arrow from a box to the next one: in a row, or down from one row to the next. */
function drawArrow(from, to, bottom) {
  const down = bottom + 11;
  const middle = to.x + BOX_WIDTH / 2;
  const inRow = `M ${from.x + BOX_WIDTH} ${from.y + 28} L ${to.x - 3} ${from.y + 28}`;
  const toRow = `M ${from.x + BOX_WIDTH / 2} ${from.y + from.height} L ${from.x + BOX_WIDTH / 2} ${down} L ${middle} ${down} L ${middle} ${to.y - 3}`;
  return element("path", { d: from.row === to.row ? inRow : toRow, "marker-end": "url(#tip)" });
}

/** What the entries of a row translate that are of the second stage or of an MSI page table, as a text above the first of them. */
function drawLabel({ part, x, y }) {
  const of = part.operands.of ?? part.operands.guest;
  const label = part.kind === "msi" ? `MSI page table, of ${of}` : `second stage, of the guest's ${of}`;
  return element("text", { x: x + BOX_WIDTH / 2 + 8, y: y - 9, class: "label" }, label);
}

/** The picture of a walk from the texts of its parts. */
function drawWalk(texts) {
  const parts = texts.map(walkPart);
  const end = parts.at(-1);
  const verdict = isRefused(end) ? "refused" : "granted";
  const decides = decidingPart(parts);
  const { boxes, height, width } = placedBoxes(walkRows(parts));
  const svg = element("svg", { role: "img", "aria-label": `Walk of ${parts.length} parts, which ends in ${end.text}`, viewBox: `0 0 ${width} ${height}` });
  svg.style.cssText = `width: 100%; max-width: ${width}px; min-width: ${0.8 * width}px`;
  const tip = { id: "tip", viewBox: "0 0 8 8", refX: 7, refY: 4, markerWidth: 7, markerHeight: 7, orient: "auto" };
  svg.append(element("defs", {}, element("marker", tip, element("path", { d: "M 0 0 L 8 4 L 0 8 z" }))));
  boxes.forEach((box, i) => {
    const before = boxes[i - 1];
    if (before) {
      const bottom = Math.max(...boxes.filter((it) => it.row === before.row).map((it) => it.y + it.height));
      svg.append(drawArrow(before, box, bottom));
    }
    if (isOfSecond(box.part) && before.row !== box.row) {
      svg.append(drawLabel(box));
    }
    const marks = box.part === end ? verdict : box.part === decides ? `decides ${verdict}` : "";
    svg.append(drawBox(box, `${box.part.kind} ${marks}`));
  });
  return svg;
}

"use strict";

// The script in a field, with its lines' numbers and answers beside them. Of a long script only the lines about those that are seen are in the
// page. What is seen of the field's text are rows behind it, each with a line, wrapped as in the field; the field's own letters are transparent.

// A line's height, as in style.css.
const LINE_PIXELS = 18;
// A script of no more lines is in the field as a whole, and all that a browser can do with a field can be done with it.
const WHOLE = 1000;
// How many lines of a longer one are in the field, and how many of them at least on either side of those that are seen.
const PIECE = 400;
const MARGIN = 40;
// A browser makes no part of a page higher than about 17,000,000 pixels.
const MOST_PIXELS = 12_000_000;
// Where so many lines are inserted at once, the field isn't asked to do it.
const MANY = 500;

function linesOf(text) {
  return text.replace(/\r\n?/g, "\n").split("\n");
}

function lineEnds(text) {
  let count = 0;
  for (let place = text.indexOf("\n"); place >= 0; place = text.indexOf("\n", place + 1)) {
    count += 1;
  }
  return count;
}

function cell(name, text) {
  const made = document.createElement("span");
  made.className = name;
  made.textContent = text;
  return made;
}

class Editor {
  /** In this place, with `beside` for what stands beside line i, `changed` called where the text from line i on is another, and `clicked` with a line's number. */
  constructor(place, { beside, changed, clicked }) {
    this.place = place;
    this.field = place.querySelector("textarea");
    this.body = place.querySelector(".rows");
    this.before = place.querySelector(".before");
    this.after = place.querySelector(".after");
    this.told = { beside, changed, clicked };
    this.lines = [""];
    // The text of the lines, once it was asked for.
    this.joined = null;
    this.rows = [];
    // The lines in the field, and the one that is marked, from 1 on.
    this.from = 0;
    this.to = 1;
    this.marked = 0;
    this.asksAll = false;
    this.field.addEventListener("input", () => this.typed());
    this.field.addEventListener("beforeinput", (event) => this.takeOver(event));
    this.field.addEventListener("keydown", (event) => this.onKey(event));
    this.field.addEventListener("click", () => this.caretClicked());
    this.field.addEventListener("copy", (event) => this.copyAll(event));
    this.field.addEventListener("cut", (event) => this.copyAll(event) && this.insert(""));
    this.body.addEventListener("click", (event) => this.rowClicked(event));
    place.addEventListener("scroll", () => this.scrolled());
    new ResizeObserver(() => this.scrolled()).observe(place);
  }

  get text() {
    this.joined ??= this.lines.join("\n");
    return this.joined;
  }

  /** Another script. */
  set text(text) {
    this.lines = linesOf(text);
    this.joined = null;
    this.marked = 0;
    this.draw(0);
    this.place.scrollTop = 0;
  }

  get isWhole() {
    return this.lines.length <= WHOLE;
  }

  /** How high a line is that isn't in the field. */
  get unit() {
    return Math.min(LINE_PIXELS, MOST_PIXELS / this.lines.length);
  }

  /** Puts the lines about this one into the field. */
  draw(line) {
    const most = this.lines.length;
    this.from = this.isWhole ? 0 : Math.max(0, Math.min(line - PIECE / 2, most - PIECE));
    this.to = this.isWhole ? most : Math.min(most, this.from + PIECE);
    this.field.value = this.lines.slice(this.from, this.to).join("\n");
    this.place.style.setProperty("--digits", String(most).length);
    this.rows = this.lines.slice(this.from, this.to).map((_, i) => this.row(this.from + i));
    this.body.replaceChildren(...this.rows);
    this.keepRoom();
  }

  keepRoom() {
    this.before.style.height = `${this.from * this.unit}px`;
    this.after.style.height = `${(this.lines.length - this.to) * this.unit}px`;
  }

  row(i) {
    const { number, answer, kind, title } = this.told.beside(i);
    const row = document.createElement("div");
    row.className = i + 1 === this.marked ? "row now" : "row";
    const line = this.lines[i];
    const end = line.indexOf("#") < 0 ? line.length : line.indexOf("#");
    const text = cell("text", line.slice(0, end));
    text.append(line ? cell("comment", line.slice(end)) : " ");
    text.ariaHidden = "true";
    const side = cell(`answer ${kind}`, answer);
    side.title = title;
    row.append(cell("number", number), text, side);
    return row;
  }

  /** What stands beside the lines is another. */
  refresh() {
    this.rows = this.rows.map((_, i) => this.row(this.from + i));
    this.body.replaceChildren(...this.rows);
  }

  /** Marks a line. It is brought to where it is seen, except where one types. */
  mark(line) {
    this.rowOf(this.marked)?.classList.remove("now");
    this.marked = line;
    if (document.activeElement !== this.field) {
      this.reveal(line);
    }
    this.rowOf(line)?.classList.add("now");
  }

  /** The row of a line of this number. */
  rowOf(number) {
    return this.rows[number - 1 - this.from];
  }

  /** Where a row begins in what can be scrolled. */
  topOf(row) {
    return this.before.offsetHeight + row.offsetTop;
  }

  reveal(line) {
    if (!line) {
      this.place.scrollTop = 0;
      return;
    }
    if (!this.rowOf(line)) {
      this.draw(line - 1);
    }
    const row = this.rowOf(line);
    const top = this.topOf(row);
    if (row && (top < this.place.scrollTop || top + row.offsetHeight > this.place.scrollTop + this.place.clientHeight)) {
      this.place.scrollTop = top - this.place.clientHeight / 2;
      this.scrolled();
    }
  }

  /** The line at this height of what can be scrolled, from 0 on, and how far above it this is. */
  lineAt(height) {
    const inside = height - this.before.offsetHeight;
    const below = inside - this.body.offsetHeight;
    if (inside < 0 || below >= 0) {
      const line = inside < 0 ? height / this.unit : this.to + below / this.unit;
      return { line: Math.max(0, Math.min(Math.floor(line), this.lines.length - 1)), left: 0 };
    }
    let [low, high] = [0, this.rows.length];
    while (high - low > 1) {
      const middle = (low + high) >> 1;
      [low, high] = this.rows[middle].offsetTop <= inside ? [middle, high] : [low, middle];
    }
    return { line: this.from + low, left: inside - this.rows[low].offsetTop };
  }

  /** Puts other lines into the field where those that are seen come near its end. */
  scrolled() {
    if (this.from === 0 && this.to === this.lines.length) {
      return;
    }
    const first = this.lineAt(this.place.scrollTop);
    const last = this.lineAt(this.place.scrollTop + this.place.clientHeight);
    const isNear = (this.from > 0 && first.line < this.from + MARGIN) || (this.to < this.lines.length && last.line >= this.to - MARGIN);
    if (!isNear) {
      return;
    }
    const { caret, end } = this.selected();
    this.draw(first.line);
    this.place.scrollTop = this.topOf(this.rows[first.line - this.from]) + first.left;
    this.select(caret, end);
  }

  /** Where the selection begins and ends: the line, from 0 on, and the place in it. */
  selected() {
    const places = [this.field.selectionStart, this.field.selectionEnd].map((it) => {
      const text = this.field.value.slice(0, it);
      return { line: this.from + lineEnds(text), column: it - text.lastIndexOf("\n") - 1 };
    });
    return { caret: places[0], end: places[1] };
  }

  /** Selects that anew, where the field has it. */
  select(caret, end) {
    const places = [caret, end].map(({ line, column }) => {
      const lines = this.lines.slice(this.from, line);
      return line >= this.from && line < this.to ? lines.reduce((sum, it) => sum + it.length + 1, column) : -1;
    });
    if (places[0] < 0 || places[1] < 0) {
      this.field.blur();
      return;
    }
    if (document.activeElement === this.field) {
      this.field.setSelectionRange(places[0], places[1]);
    }
  }

  /** What was typed into the field is in the script. */
  typed() {
    const old = this.lines.slice(this.from, this.to);
    const made = this.field.value.split("\n");
    const first = made.findIndex((line, i) => line !== old[i]);
    const changed = this.from + (first < 0 ? made.length : first);
    this.put(this.from, this.to, made);
    this.to = this.from + made.length;
    this.told.changed(changed);
    if (made.length > 2 * WHOLE || (this.isWhole && made.length < this.lines.length)) {
      const { caret, end } = this.selected();
      this.draw(caret.line);
      this.select(caret, end);
      return;
    }
    this.place.style.setProperty("--digits", String(this.lines.length).length);
    this.rows = made.map((_, i) => (this.from + i < changed ? this.rows[i] : this.row(this.from + i)));
    this.body.replaceChildren(...this.rows);
    this.keepRoom();
  }

  put(from, to, lines) {
    this.lines = this.lines.slice(0, from).concat(lines, this.lines.slice(to));
    this.joined = null;
  }

  /** Whether all of a script was selected of which the field has a part. */
  get isAll() {
    const { selectionStart, selectionEnd, value } = this.field;
    return this.asksAll && !this.isWhole && selectionStart === 0 && selectionEnd === value.length;
  }

  /** Many lines are inserted here and not by the field, and so is what takes the place of a whole script of which the field has a part. */
  takeOver(event) {
    const text = event.data ?? event.dataTransfer?.getData("text/plain") ?? "";
    const isChange = /^(insert|delete)/.test(event.inputType);
    if (isChange && (this.isAll || lineEnds(text) >= MANY)) {
      event.preventDefault();
      this.insert(event.inputType === "insertLineBreak" ? "\n" : text);
    }
  }

  /** Puts a text in the place of what is selected. */
  insert(text) {
    const { selectionStart, selectionEnd, value } = this.field;
    const [from, to] = this.isAll ? [0, this.lines.length] : [this.from, this.to];
    const [head, tail] = this.isAll ? ["", ""] : [value.slice(0, selectionStart), value.slice(selectionEnd)];
    const front = linesOf(head + text);
    this.put(from, to, linesOf(head + text + tail));
    const caret = { line: from + front.length - 1, column: front.at(-1).length };
    this.told.changed(from);
    this.draw(caret.line);
    this.place.scrollTop = this.topOf(this.rowOf(caret.line + 1)) - this.place.clientHeight / 2;
    this.select(caret, caret);
  }

  copyAll(event) {
    if (!this.isAll) {
      return false;
    }
    event.preventDefault();
    event.clipboardData.setData("text/plain", this.text);
    return true;
  }

  onKey(event) {
    const isCommand = event.ctrlKey || event.metaKey;
    if (isCommand && event.key.toLowerCase() === "a") {
      this.asksAll = true;
    } else if (!isCommand && event.key.length > 1 && !["Backspace", "Delete", "Enter"].includes(event.key)) {
      this.asksAll = false;
    }
    if (isCommand && !this.isWhole && ["Home", "End"].includes(event.key)) {
      event.preventDefault();
      const line = event.key === "Home" ? 0 : this.lines.length - 1;
      this.reveal(line + 1);
      this.draw(line);
      const caret = { line, column: event.key === "Home" ? 0 : this.lines[line].length };
      this.select(caret, caret);
    }
  }

  caretClicked() {
    this.asksAll = false;
    if (this.field.selectionStart === this.field.selectionEnd) {
      this.told.clicked(this.selected().caret.line + 1);
    }
  }

  rowClicked(event) {
    const i = this.rows.indexOf(event.target.closest(".row"));
    if (i >= 0) {
      this.told.clicked(this.from + i + 1);
    }
  }
}

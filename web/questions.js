"use strict";

// What the page asks of the model at a line, and what it makes of the answers. Nothing here touches the page.

const CONTEXT_PLACES = 16;
const PAGE_PLACES = 64;
const LAST_STEPS = 32;
const WALK_PARTS = 30;
const DEVICES = 8;
const MESSAGES = 16;
const SHOWN_ITEMS = 16;
// After how many numbers of lines answers are kept, and how many questions are asked before their time.
const MOST_KNOWN = 4;
const MOST_LATE = 128;

// The modes of a context's stages by their numbers.
const FIRST_MODES = { 0: "Bare", 8: "Sv39", 9: "Sv48", 10: "Sv57" };
const SECOND_MODES = { 0: "Bare", 8: "Sv39x4", 9: "Sv48x4", 10: "Sv57x4" };

/** The words of a line, without its comment. */
function wordsOf(line) {
  return line.replace(/#.*/s, "").split(/[ \t\r]+/).filter(Boolean);
}

function range(count, text) {
  return Array.from({ length: count }, (_, i) => text(i));
}

const CONTEXT_QUESTIONS = range(CONTEXT_PLACES, (i) => `place context ${i}`);
const PAGE_QUESTIONS = range(PAGE_PLACES, (i) => `place page ${i}`);
const ORIGIN_QUESTIONS = [...range(CONTEXT_PLACES, (i) => `origin context ${i}`), ...range(PAGE_PLACES, (i) => `origin page ${i}`)];

/** The answer that a line's comment wants, as of `cmd # => idle`; undefined where it wants none. */
function wantedOf(line) {
  return /^[^#]*#[ \t\r]*=>[ \t\r]*(.*?)[ \t\r]*$/s.exec(line)?.[1];
}

/** Whether a line may be an access of a device, which can fill the caches. */
function mayFill(line) {
  return /^[ \t\r]*(dma|dev[ \t\r]+(step|run))(?![^ \t\r#])/.test(line);
}

/** Whether a line asks what is owed, or which entries name some memory. */
function asksOwed(line) {
  return /^[ \t\r]*(owed|free[ \t].*)[ \t\r]*(#|$)/.test(line);
}

/** The numbers of the lines that a condition holds of, from 1 on. */
function numbersWhere(lines, holds) {
  const found = [];
  lines.forEach((line, i) => holds(line) && found.push(i + 1));
  return found;
}

/** The texts as lines of a script, in bytes. */
function bytesOf(lines) {
  return new TextEncoder().encode(lines.length ? `${lines.join("\n")}\n` : "");
}

/** The lines of a text in bytes. */
function linesIn(bytes) {
  return new TextDecoder().decode(bytes).split("\n").slice(0, -1);
}

/** Where the first line of a text in bytes ends, and each after it: 0 before the first one. */
function endsOf(bytes, count) {
  const ends = new Uint32Array(count + 1);
  for (let line = 1, at = 0; line <= count; line += 1) {
    at = bytes.indexOf(10, at) + 1;
    ends[line] = at;
  }
  return ends;
}

/** A script on an image, and what is asked of it. */
class Script {
  constructor(model, image, text) {
    this.model = model;
    this.image = image;
    // What was asked after some numbers of lines, and which questions weren't the first ones there.
    this.known = new Map();
    this.late = [];
    this.lines = text.split("\n");
    if (this.lines[this.lines.length - 1] === "") {
      this.lines.pop();
    }
    this.bytes = bytesOf(this.lines);
    this.ends = endsOf(this.bytes, this.lines.length);
    const answers = model.answersTo(image, this.bytes, 4096 + 32 * this.lines.length);
    this.room = answers.length;
    this.answers = linesIn(answers);
    // The start, and each line that isn't blank.
    this.stops = numbersWhere(this.answers, (answer) => answer);
    this.stops.unshift(0);
    this.accesses = numbersWhere(this.lines, mayFill);
  }

  /** The number of the last stop up to a line. */
  stopOf(line) {
    let [low, high] = [0, this.stops.length];
    while (high - low > 1) {
      const middle = (low + high) >> 1;
      [low, high] = this.stops[middle] <= line ? [middle, high] : [low, middle];
    }
    return low;
  }

  /** The answers to questions after the first `count` lines, by question. */
  ask(count, questions) {
    const known = this.known.get(count);
    const missing = known ? questions.filter((it) => !known.has(it)) : questions;
    if (missing.length) {
      // What was asked later than the rest after other lines is asked with the rest here: each time the lines are played.
      const asked = known ? missing : [...new Set([...missing, ...this.late])];
      this.late = known ? [...new Set([...missing, ...this.late])].slice(0, MOST_LATE) : this.late;
      this.know(count, asked, this.answersAfter(count, asked));
    }
    return new Map(questions.map((question) => [question, this.known.get(count).get(question)]));
  }

  /** Keeps answers to questions after so many lines, and those after few other numbers of lines. */
  know(count, questions, answers) {
    const known = this.known.get(count) ?? new Map();
    questions.forEach((question, i) => known.set(question, answers[i]));
    this.known.delete(count);
    this.known.set(count, known);
    if (this.known.size > MOST_KNOWN) {
      this.known.delete(this.known.keys().next().value);
    }
  }

  answersAfter(count, questions) {
    const before = this.bytes.subarray(0, this.ends[count]);
    const asked = bytesOf(questions);
    const played = new Uint8Array(before.length + asked.length);
    played.set(before);
    played.set(asked, before.length);
    return lastLines(this.model.answersTo(this.image, played, 4096 + this.room + 192 * questions.length), questions.length);
  }

  /**
   * By what any IOMMU may hold, in bytes: of each of the first `count` lines the answer and, in a line behind it, its last access that wasn't settled,
   * an empty one where each was; then a line for each request that is owed. Null where there is no memory to know it.
   */
  reports(count) {
    try {
      return this.model.reportsOn(this.image, this.bytes.subarray(0, this.ends[count]), 4096 + this.room + 64 * count);
    } catch (fault) {
      if (!(fault instanceof Refusal)) {
        throw fault;
      }
      return null;
    }
  }

  /** The last access of the line of this number that wasn't settled, an empty text where there is none, and what is owed behind the line; or null. */
  settled(number) {
    const bytes = this.reports(number);
    if (!bytes) {
      return null;
    }
    const ends = endsOf(bytes, 2 * number);
    const [report] = number ? linesIn(bytes.subarray(ends[2 * number - 1], ends[2 * number])) : [""];
    return { report, owed: linesIn(bytes.subarray(ends[2 * number])) };
  }

  /** The lines that filled the places of both caches, as they are after the first `count` lines. */
  fillers(count) {
    return fillersIn(this.ask(count, ORIGIN_QUESTIONS));
  }

  /** What is known after the first `count` lines: the caches, the queues, the messages, the devices and why the last line went so. */
  state(count) {
    const questions = [
      "queue cmd",
      "queue fault",
      ...CONTEXT_QUESTIONS,
      ...range(CONTEXT_PLACES, (i) => `stale context ${i}`),
      ...PAGE_QUESTIONS,
      ...range(PAGE_PLACES, (i) => `stale page ${i}`),
      ...ORIGIN_QUESTIONS,
      ...range(MESSAGES, (i) => `message ${i}`),
      ...range(DEVICES, (i) => `dev show ${i}`),
      ...range(LAST_STEPS, (i) => `why ${i}`),
    ];
    const told = this.ask(count, questions);
    const items = [...itemQuestions("cmd", 16, told), ...itemQuestions("fault", 32, told)];
    for (const [question, answer] of items.length ? this.ask(count, items.map((it) => it.question)) : []) {
      told.set(question, answer);
    }
    return { told, commands: items.filter((it) => it.kind === "cmd"), faults: items.filter((it) => it.kind === "fault"), fillers: fillersIn(told) };
  }

  /** The access that a line makes, by the state before it; null where it makes none. */
  access(line) {
    const words = wordsOf(this.lines[line - 1] ?? "");
    if (words[0] === "dma" && words.length === 5) {
      return { kind: words[1], did: words[2], iova: words[3] };
    }
    if (words[0] === "dev" && (words[1] === "step" || words[1] === "run") && words.length > 2) {
      const question = `dev show ${words[2]}`;
      const found = /^did=(\S+) .*next=(read|write) iova=(\S+)/.exec(this.ask(line - 1, [question]).get(question));
      return found && { kind: found[2], did: found[1], iova: found[3] };
    }
    return null;
  }

  /** The parts of the walk of an access as the tables stood before a line, by question; none where the line asks for none. */
  walk(line, access) {
    const of = `${access.kind} ${access.did} ${access.iova}`;
    const told = this.ask(line - 1, [`stale ${of}`, ...range(WALK_PARTS, (i) => `walk ${of} ${i}`)]);
    for (const [question, answer] of told) {
      if (answer === "none" || answer === "bad") {
        told.delete(question);
      }
    }
    return told;
  }

  /** Memory after the first `count` lines: 64 bytes from each of these addresses, by question. */
  memory(count, from, pieces) {
    return this.ask(count, range(pieces, (i) => `dump 0x${(from + BigInt(64 * i)).toString(16)} 64`));
  }
}

/** The lines that filled the places of both caches, by the answers of `origin`. */
function fillersIn(told) {
  const lines = (count, question, pattern) =>
    range(count, (i) => pattern.exec(told.get(question(i)) ?? "")).filter(Boolean).map((it) => Number(it[1]));
  return {
    contexts: lines(CONTEXT_PLACES, (i) => `origin context ${i}`, /^context (\d+)$/),
    pages: lines(PAGE_PLACES, (i) => `origin page ${i}`, / walk=(\d+)$/),
  };
}

/** The last lines of a text in bytes, so many. */
function lastLines(bytes, count) {
  let from = bytes.length;
  for (let i = 0; i <= count && from >= 0; i += 1) {
    from = from ? bytes.lastIndexOf(10, from - 1) : -1;
  }
  return linesIn(bytes.subarray(from + 1));
}

/** The operands of a text by name. */
function operandsOf(text) {
  return Object.fromEntries([...text.matchAll(/([\w-]+)=(\S+)/g)].map(([, key, value]) => [key, value]));
}

/** The questions for a queue's items: those that wait, and some before them. */
function itemQuestions(kind, size, told) {
  const view = operandsOf(told.get(`queue ${kind}`));
  const [entries, head, tail] = [view.entries, view.head, view.tail].map(Number);
  if (!entries) {
    return [];
  }
  const waiting = (tail - head + entries) % entries;
  const many = Math.min(entries, SHOWN_ITEMS);
  const behind = Math.max(0, Math.min(many - waiting, head));
  return range(Math.min(many, behind + waiting), (i) => {
    const index = (head - behind + i + entries) % entries;
    const question = `show ${kind} 0x${(BigInt(view.base) + BigInt(size * index)).toString(16)}`;
    return { kind, index, question, waits: i >= behind };
  });
}

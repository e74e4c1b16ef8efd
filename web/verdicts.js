"use strict";

// How the lines of a script are judged, and what the steps of a line did that makes many. Nothing here touches the page.

// Of a line of so many steps each is told of; of a longer one the last so many.
const MOST_STEPS = 4096;
// In lines of many steps stale accesses are looked for among so many; of a line beyond these at its last step.
const MOST_LOOKED_AT = 1 << 20;
// What a line `owed` is answered as long as it isn't known what is owed.
const OWED_UNKNOWN = "unknown, it needs --settled";
// As many steps are traced as these ask after: after so many steps the last of them is of the last step.
const WHY_ALL = range(LAST_STEPS, (i) => `why ${i}`);
const WHY_LAST = WHY_ALL.slice(-1);

/** Whether an answer serves a wish, as `check` judges without --stale and --settled: a last word `stale` or `unsettled` isn't judged,
 * `any unsettled` takes each answer but `bad`, and a `*` at the end each that begins so. */
function serves(wanted, answer) {
  const [, text, word] = /^(.*?)(?:[ \t\r]+(stale|unsettled))?$/s.exec(wanted);
  if (word === "unsettled" && text === "any") {
    return answer !== "bad";
  }
  return text.endsWith("*") ? answer.startsWith(text.slice(0, -1)) : answer === text;
}

/** Whether a line's answer is another than it wants, or bad and not wanted so ("wrong"), the one that it wants ("passed"), or a denial that no
 * wish is told of ("denied"). */
function kindOf(script, i) {
  const answer = script.answers[i];
  if (answer === OWED_UNKNOWN) {
    return "";
  }
  const wanted = script.lines[i].includes("=>") ? wantedOf(script.lines[i]) : undefined;
  if (answer && wanted !== undefined) {
    return serves(wanted, answer) ? "passed" : "wrong";
  }
  return answer === "bad" ? "wrong" : answer.startsWith("denied") ? "denied" : "";
}

/** How many lines passed and failed, as `check` counts them. */
function countsOf(script) {
  const counts = { passed: 0, wrong: 0 };
  script.lines.forEach((_, i) => (counts[kindOf(script, i)] += 1));
  return { passed: counts.passed, failed: counts.wrong };
}

/** The step that a line `dev run` or `cmd run` repeats, and how often it did; null of any other line. */
function repeated(script, line) {
  const text = script.lines[line - 1] ?? "";
  const count = /^(0x[0-9a-f]+) /.exec(script.answers[line - 1] ?? "")?.[1];
  if (!count || !/^[ \t\r]*(dev|cmd)[ \t\r]+run/.test(text)) {
    return null;
  }
  const [first, , device] = wordsOf(text);
  return { step: first === "dev" ? `dev step ${device}` : "cmd", device, count: Number(count) };
}

/** The answers to lines of these numbers, with those to what is asked just before each and just after it. */
function answersAround({ model, image, lines }, numbers, before, after) {
  const played = [];
  const places = [];
  let done = 0;
  numbers.forEach((number, i) => {
    for (; done < number - 1; done += 1) {
      played.push(lines[done]);
    }
    const [first, then] = [before(i), after(i)];
    const at = played.length + first.length;
    played.push(...first, lines[done], ...then);
    places.push([at - first.length, at, at + 1 + then.length]);
    done = number;
  });
  const answers = model.play(image, played);
  return places.map(([from, at, to]) => ({ before: answers.slice(from, at), answer: answers[at], after: answers.slice(at + 1, to) }));
}

/** What the tables said, where the last step went by something cached that led it elsewhere; undefined where it didn't. */
function staleIn(reasons) {
  return reasons.findLast((it) => it !== "none")?.split(" stale ")[1];
}

function whyLast(i) {
  return i < LAST_STEPS ? WHY_ALL : WHY_LAST;
}

/** What the tables said at each line with a stale access, of its first one: by line. */
function staleLines(script) {
  const lines = [];
  const [numbers, owners] = [[], []];
  let done = 0;
  let left = MOST_LOOKED_AT;
  for (const line of script.accesses) {
    const run = repeated(script, line);
    left -= run?.count ?? 0;
    const steps = run && left >= 0 ? Array(run.count).fill(run.step) : [script.lines[line - 1]];
    for (; done < line - 1; done += 1) {
      lines.push(script.lines[done]);
    }
    done = line;
    for (const step of steps) {
      lines.push(step);
      if (script.answers[line - 1] !== "bad") {
        numbers.push(lines.length);
        owners.push(line);
      }
    }
  }
  const found = new Map();
  answersAround({ ...script, lines }, numbers, () => [], whyLast).forEach(({ after }, i) => {
    const stale = staleIn(after);
    if (stale && !found.has(owners[i])) {
      found.set(owners[i], stale);
    }
  });
  return found;
}

/** The last access that wasn't settled of each line that made one, by line, and the answer to each line `owed`; null where there is no memory to know. */
function unsettledLines(script) {
  const bytes = script.reports(script.lines.length);
  if (!bytes) {
    return null;
  }
  const told = linesIn(bytes);
  const [reports, owed] = [new Map(), new Map()];
  script.lines.forEach((line, i) => {
    if (told[2 * i + 1]) {
      reports.set(i + 1, told[2 * i + 1]);
    }
    if (asksOwed(line)) {
      owed.set(i + 1, told[2 * i]);
    }
  });
  return { reports, owed };
}

/** A line of many steps: each of them in a line of its own, behind the lines before it, and what these did. */
class Run {
  constructor(script, line) {
    const { step, device, count } = repeated(script, line);
    this.line = line;
    this.count = count;
    this.script = new Script(script.model, script.image, [...script.lines.slice(0, line - 1), ...Array(count).fill(step)].join("\n"));
    this.from = Math.max(0, count - MOST_STEPS);
    const numbers = range(count - this.from, (i) => line + this.from + i);
    const before = () => (device === undefined ? [] : [`dev show ${device}`]);
    this.steps = answersAround(this.script, numbers, before, device === undefined ? () => [] : whyLast).map(({ before: [view], answer, after }) => ({
      isAccess: /next=(read|write) /.test(view),
      answer,
      stale: staleIn(after),
    }));
  }

  /** The number of the last step that made an access, from 1 on; that of the last step where none made one. */
  get last() {
    const found = this.steps.findLastIndex((it) => it.isAccess);
    return found < 0 ? this.count : this.from + found + 1;
  }

  /** What the steps were, in words. */
  get text() {
    const many = (holds) => this.steps.filter(holds).length;
    const steps = `This line made ${counted(this.count, "step")}`;
    const last = `the last was ${this.steps.at(-1).answer}`;
    const looked = this.from ? `; of the last ${this.steps.length}` : "";
    const made = many((it) => it.isAccess);
    if (!made) {
      return `${steps}; ${last}.`;
    }
    const denied = many((it) => it.answer.startsWith("denied"));
    const stale = many((it) => it.stale);
    return `${steps}${looked}, ${counted(made, "access", "accesses")}: ${denied} denied, ${stale} stale; ${last}.`;
  }
}

/** A number and what it counts. */
function counted(count, one, many = `${one}s`) {
  return `${count.toLocaleString("en")} ${count === 1 ? one : many}`;
}

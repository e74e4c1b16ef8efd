// What the tests of the page ask it, evaluated in the page itself: each is a function of `asked`.
"use strict";

globalThis.asked = (() => {
  const at = (id) => document.getElementById(id);
  const texts = (selector) => [...document.querySelectorAll(selector)].map((it) => it.textContent);
  const rows = () => [...document.querySelectorAll("#editor .row")];
  const field = at("script");

  const timed = (work) => {
    const from = performance.now();
    work();
    return performance.now() - from;
  };

  // Whether two boxes of a picture share no point, and whether one is within another.
  const apart = (a, b) => a.x + a.width <= b.x || b.x + b.width <= a.x || a.y + a.height <= b.y || b.y + b.height <= a.y;
  const within = (a, b) => a.x + a.width <= b.x + b.width && a.y + a.height <= b.y + b.height;

  // The first row that is seen as a whole at the top of the editor, its number and its text; null if there is none.
  const firstRow = () => {
    const top = at("editor").getBoundingClientRect().top;
    const row = rows().find((it) => it.getBoundingClientRect().top >= top);
    return row && row.getBoundingClientRect().top < top + 60 ? [Number(row.children[0].textContent), row.children[1].textContent] : null;
  };

  return {
    firstRow,
    numbers: () => rows().map((it) => it.children[0].textContent),
    answers: () => rows().map((it) => it.children[2].textContent),
    marked: (kind) => rows().flatMap((it, i) => (it.children[2].classList.contains(kind) ? [i + 1] : [])),
    scripts: () => [field.value, at("image").value],
    text: (id) => at(id)?.textContent ?? "",
    counts: () => texts("#counts span"),
    owns: () => [...document.querySelectorAll("#example option")].map((it) => it.value).filter((it) => it.startsWith("own ")),
    hash: () => location.hash.replace(/&.*/, ""),
    type: (id, text) => {
      at(id).value = text;
      at(id).dispatchEvent(new Event("input", { bubbles: true }));
    },
    choose: (value) => {
      at("example").value = value;
      at("example").dispatchEvent(new Event("change"));
    },
    own: (text, image) => showOwn(own.find(text, image)),
    // A script that can't be packed.
    ownTooLong: () => showOwn(own.find(Array.from({ length: 40000 }, () => `# ${crypto.randomUUID()}`).join("\n"), "")),

    // What stands at a line: its answer, the one that it wants, and whether its access is stale, and unsettled.
    verdict: (number) => {
      go(number);
      const told = (kind) => document.querySelector(`#why .${kind}`)?.textContent ?? "";
      return [script.answers[line - 1], wantedOf(script.lines[line - 1]) ?? null, told("stale"), told("unsettled")];
    },
    // What is owed at a line.
    owed: (number) => {
      go(number);
      return [at("owed-note").textContent, texts("#owed li")];
    },
    // What is shown at a line, and the steps up to the one that is shown of a line of many.
    state: (number) => {
      go(number);
      return [[...shown], view.isStep ? Array(view.at - line + 1).fill(view.script.lines[line - 1]) : null];
    },
    stepShown: (number, step) => {
      go(number, step);
      return [...shown];
    },
    fillers: (number) => {
      go(number);
      return [view.script.fillers(view.at), [...shown].findLast(([it]) => it.startsWith("why"))?.[1] ?? ""];
    },
    run: (number) => {
      go(number);
      const isStale = rows()[number - 1].children[2].classList.contains("stale");
      const boxes = document.querySelectorAll("#walk rect").length;
      return [at("run-text")?.innerText ?? "", isStale, at("why").textContent, boxes > 0, Number(at("run-step")?.value)];
    },
    queue: (name) => [at(`${name}-note`).textContent, texts(`#${name} li`).map((it) => it.trim().replace(/\s+/g, " "))],
    played: () => timed(play),
    stepped: (number) => timed(() => go(number)),
    slid: (place) => {
      at("slider").focus();
      at("slider").value = place;
      at("slider").dispatchEvent(new Event("input"));
      return [line, Number(at("slider").max)];
    },

    // The picture of an access: how many parts it has, and how its boxes lie.
    picture: (number) => {
      go(number);
      const boxes = [...document.querySelectorAll("#walk rect")].map((it) => it.getBBox());
      const holds = (group) => [...group.querySelectorAll("text")].every((it) => within(it.getBBox(), group.querySelector("rect").getBBox()));
      return {
        parts: [...shown.keys()].filter((it) => it.startsWith("walk")).length,
        boxes: boxes.length,
        apart: boxes.every((a, i) => boxes.slice(i + 1).every((b) => apart(a, b))),
        within: [...document.querySelectorAll("#walk g")].every(holds),
        decides: document.querySelectorAll("#walk .decides").length,
      };
    },

    // Whether an element is in the window, with nothing above it.
    isSeen: (id) => {
      const element = at(id);
      if (!element || element.hidden) {
        return false;
      }
      const box = element.getBoundingClientRect();
      const found = document.elementFromPoint(box.left + box.width / 2, box.top + box.height / 2);
      return box.height > 0 && box.top >= 0 && box.bottom <= innerHeight && (found === element || element.contains(found));
    },
    placeOf: (number, part) => {
      go(1);
      document.activeElement.blur();
      scrollTo(0, 0);
      const box = rows()[number - 1].children[part].getBoundingClientRect();
      return [box.left + 12, box.bottom - 6];
    },
    wrapped: () => rows().filter((it) => it.offsetHeight > 30).length,

    // Whether each line of the script stands beside its row, and as a whole in the field.
    carets: () => {
      const lines = field.value.split("\n");
      const lineOf = (offset) => field.value.slice(0, offset).split("\n").length - 1;
      const bad = [];
      // The empty line behind the last line end is none, and Firefox has no place for it.
      rows().filter((row, i) => lines[i] || i < lines.length - 1).forEach((row, i) => {
        row.scrollIntoView({ block: "center" });
        const box = row.children[1].getBoundingClientRect();
        for (const y of [box.top + 6, box.bottom - 6]) {
          const found = document.caretPositionFromPoint(box.left + 10, y);
          if (found?.offsetNode !== field || lineOf(found.offset) !== i) {
            bad.push([i, found && lineOf(found.offset)]);
          }
        }
      });
      return { bad, wide: field.scrollWidth > field.clientWidth, high: Math.abs(field.scrollHeight - field.clientHeight) > 2 };
    },
    looks: (count) => rows().slice(0, count).map((it) => getComputedStyle(it.children[2])).map((it) => [it.color, it.fontWeight]),

    // The texts that have flags, and of each place of the translation cache its level and whether it is global.
    flagged: () => texts("#commands li, #faults li, #walk-words li, #contexts td:last-child, #pages td:last-child"),
    pages: () => [...document.querySelectorAll("#pages tr:not(.empty)")].slice(1).map((it) => [...it.children].slice(8, 10).map((cell) => cell.textContent)),

    // A row by its number: its text, its answer, and whether it is within the editor.
    row: (number) => {
      const row = rows().find((it) => it.children[0].textContent === String(number));
      if (!row) {
        return null;
      }
      const box = row.getBoundingClientRect();
      const place = at("editor").getBoundingClientRect();
      const answer = row.children[2].textContent.replace(/^. |stale |unsettled /g, "");
      return [row.children[1].textContent, answer, box.top >= place.top && box.bottom <= place.bottom];
    },
    elements: () => document.querySelectorAll("*").length + field.value.length / 100,
    scrollTo: (part) => {
      at("editor").scrollTop = at("editor").scrollHeight * part;
    },
    // The first rows while the editor is scrolled through.
    scrolled: async () => {
      const seen = [];
      for (let i = 0; i < 60; i += 1) {
        at("editor").scrollTop += 400;
        await new Promise((done) => requestAnimationFrame(() => requestAnimationFrame(done)));
        seen.push(firstRow()?.[0]);
      }
      return seen;
    },

    // Typing in the midst of a long script, of which the field has a part.
    typeAt: (number, text) => {
      field.focus();
      const place = field.value.split("\n").slice(0, number - 1 - editor.from).join("\n").length + 1;
      field.setRangeText(text, place, place, "end");
      field.dispatchEvent(new Event("input"));
    },
    paste: (text) => {
      field.setSelectionRange(0, 0);
      return [editor.from, field.dispatchEvent(new InputEvent("beforeinput", { inputType: "insertFromPaste", data: text, cancelable: true }))];
    },
    replaceAll: (text) => {
      field.dispatchEvent(new KeyboardEvent("keydown", { key: "a", ctrlKey: true }));
      field.select();
      field.dispatchEvent(new InputEvent("beforeinput", { inputType: "insertText", data: text, cancelable: true }));
      return editor.text;
    },
  };
})();

"use strict";

// One's own scripts, which are kept as long as the browser's tab, and the page's address, which keeps the one that is shown.

const KEPT = "rviommu.own";
// An address may be no longer than about 2,000,000 letters, and a browser keeps about as many beyond a reload.
const MOST_LETTERS = 1_000_000;

/** One's own scripts, each with its image's text: [script, image]. */
class Own {
  constructor() {
    this.scripts = [];
    this.isKept = true;
    try {
      this.scripts = JSON.parse(sessionStorage.getItem(KEPT) ?? "[]").filter(isScript);
    } catch {
      // The browser keeps nothing for this page, or what it kept is broken.
    }
  }

  /** Adds a script, and returns its number. */
  add(script, image) {
    this.scripts.push([script, image]);
    this.isKept = false;
    return this.scripts.length - 1;
  }

  /** The number of a script, which is added where there is none such. */
  find(script, image) {
    const found = this.scripts.findIndex((it) => it[0] === script && it[1] === image);
    return found < 0 ? this.add(script, image) : found;
  }

  /** Keeps a script in place of the one of this number. */
  keep(number, script, image) {
    const old = this.scripts[number];
    this.isKept &&= old[0] === script && old[1] === image;
    this.scripts[number] = [script, image];
  }

  /** Keeps them beyond a reload, except those that are too long for it. */
  save() {
    if (this.isKept) {
      return;
    }
    this.isKept = true;
    try {
      sessionStorage.setItem(KEPT, JSON.stringify(this.scripts.filter((it) => it[0].length + it[1].length <= MOST_LETTERS)));
    } catch {
      // They are kept as long as the page is open.
    }
  }
}

function isScript(it) {
  return Array.isArray(it) && it.length === 2 && it.every((text) => typeof text === "string");
}

async function packed(text) {
  const stream = new Blob([text]).stream().pipeThrough(new CompressionStream("deflate-raw"));
  const bytes = new Uint8Array(await new Response(stream).arrayBuffer());
  const code = Array.from(bytes, (it) => String.fromCharCode(it)).join("");
  return btoa(code).replaceAll("+", "-").replaceAll("/", "_").replaceAll("=", "");
}

async function unpacked(text) {
  const bytes = Uint8Array.from(atob(text.replaceAll("-", "+").replaceAll("_", "/")), (it) => it.charCodeAt(0));
  const stream = new Blob([bytes]).stream().pipeThrough(new DecompressionStream("deflate-raw"));
  return new Response(stream).text();
}

/** A script with its image's text as a part of the page's address; null where it is too long for one. */
async function addressOf(script, image) {
  const code = await packed(JSON.stringify([script, image]));
  return code.length > MOST_LETTERS ? null : `own=${code}`;
}

/** What the page's address names: an example, a script of one's own, nothing, or what there isn't. */
async function addressed(hash) {
  const named = new URLSearchParams(hash.replace(/^#/, ""));
  const told = named.get("line");
  const line = told === null ? Infinity : Math.trunc(Number(told)) || 0;
  if (named.has("example")) {
    const name = named.get("example");
    return EXAMPLES.some((it) => it.name === name) ? { example: name, line } : { fault: `names an example that doesn't exist, "${name}"`, line };
  }
  if (!named.has("own")) {
    return { line };
  }
  try {
    const own = JSON.parse(await unpacked(named.get("own")));
    return isScript(own) ? { own, line } : { fault: "holds something else than a script", line };
  } catch {
    return { fault: "holds a script that is broken", line };
  }
}

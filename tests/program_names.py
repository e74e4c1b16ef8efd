"""The names in the documents: each file, crate, definition, call, clause and test that they name is there.

And each public item has a docstring, in the page's crate too.
"""
import functools
import glob
import re
from pathlib import PurePath

from documents import names_there, rows, section_of, sections, spans, table_with
from frame import TOP, Case, commands, text_of
from crates import below, listed, stands_on

DOCUMENTS = ["README.md", "CHANGELOG.md", "examples/README.md", *names_there("docs/*")]
SUFFIXES = tuple(f".{it}" for it in "rt antt py sh md edit script answers asm txt h t 1".split())
# Folders that each crate may have, and what a build makes.
OF_EACH = {
    *("src/", "specs/", "proofs/", "must-fail/", "edits/", "data/", "out/", "proofs/Lib.antt", "dist/", "c/out"),
    *("out/build", "out/whole", "web/out", "web/out/index.html", "crates/rviommu/out/rviommu"),
}
CRATES = stands_on()
# The crates of the toolchain that they stand on.
OTHERS = {name for _, uses in listed().values() for name in uses} - set(CRATES)
# Which section of a document, or all of it, has names of the code.
NAMING = {
    "README.md": "What is proved", "docs/MAP.md": "How a step flows", "docs/CONTRIBUTING.md": "Recipes",
    "docs/MODEL.md": None, "docs/PROMISES.md": "Also proved",
}
# These take none themselves. What they make takes memory for lines of `explain` and of `check --settled`, whose allocations tests/shell
# refuses.
KEEP_AN_ALLOCATOR = {"Summary::new", "LineAccount::with_holdings", "Marks::new", "Debugger::new", "Trial::new"}
# Tests, and crates that only the program uses, whose allocations tests/shell refuses.
NO_LIBRARY = {"iom_tests", "iom_cli", "iom_explain", "iom_include", "iom_scripts"}
NAME = r"[A-Za-z_]\w*(?:::\w+)*"
# A public item or field below a line that is no comment; attributes are left out.
UNDOCUMENTED = (
    r"(?m)^(?! *///).*\n"
    r"( *pub (?:(?:const|unsafe|extern \"C\") )*(?:fn|struct|enum|trait|const|type) \w.*| +pub \w+: .*)$")


def clauses(text):
    """The names of clauses, and of what a trait states of those who implement it."""
    return re.findall(r"\b(?:ensures|requires|ghost) (\w+)", text)


def defined(path):
    """The names that a file gives to items, cases, fields, operands and clauses; in a file of definitions to these and
    to fields."""
    text = text_of(path)
    if path.endswith(".antt"):
        return set(re.findall(r"(?m)^\s*(?:\w+ )?(?:pub )?(?:data |record )?([^\s:()]+)(?: [({].*[)}])? :", text))
    text = re.sub(r"//.*", "", text)
    items = re.findall(r"\b(?:fn|struct|enum|trait|const|type|mod|impl|for)\s+(\w+)", text)
    cases = re.findall(r"(?m)^\s+(\w+)(?:,|\(.*\),| \{.*)$", text)
    return {*items, *cases, *re.findall(r"\b(\w+): ", text), *clauses(text)}


def files_of(crate, *parts):
    return [it for part in parts or ("src", "specs", "proofs") for it in names_there(f"crates/{crate}/{part}/**/*.*t")]


def stem(path):
    return PurePath(path).name.partition(".")[0]


@functools.cache
def names_of(crate):
    """The names that a crate defines, those of its files among them, and what C has beside the functions of iom_c."""
    more = "".join(map(text_of, ("c/guard.c", "include/rviommu_record.h", "include/rviommu_events.h"))) if crate == "iom_c" else ""
    return {*map(stem, files_of(crate)), *re.findall(r"rviommu_\w+", more)}.union(*map(defined, files_of(crate)))


def has(crates, name):
    """Whether each part of a name, as of `Queue::entries`, is one of a crate's among these."""
    return any(set(name.removeprefix(f"{it}::").split("::")) <= names_of(it) for it in crates)


def is_there(path, *places):
    return any(glob.glob(path, root_dir=TOP / place) for place in places or [""])


def beside(text):
    """The names in a text, each with its crate and with the file that it is named beside, or None."""
    crate = folder = path = None
    for name, colon, stop in re.findall(r"`([^`]*)`(:?)|([;(]|, by|, which)", text):
        if stop:
            path = None
        elif name.endswith((".rt", ".antt")):
            path = f"crates/{name}" if "/" in name else f"{folder}/{name}"
            crate, folder = path.split("/")[1], str(PurePath(path).parent)
            path = path if colon else None
        elif re.fullmatch(r"[\w:]+", name) and name not in CRATES:
            yield crate, path, name


def promised():
    """The exceptions that PROMISES has of each crate, in a table or below a head of three; none of those that it names before the table."""
    before, *more = re.split(r"(?m)^### ", section_of("docs/PROMISES.md", "Exceptions"))
    found = {name: "" for name in spans(before.partition("\n|")[0])}
    for crate, *cells in rows(before):
        found[crate.strip("`")] = " ".join(cells)
    return found | {spans(it)[0]: it for it in more if it.startswith("`")}


def public(crate):
    """The names that a library gives to those above it."""
    path = f"crates/{crate}/src/lib.rt"
    text = text_of(path) if is_there(path) else ""
    used = re.findall(r"(?m)^pub use (?:[\w:]+::)?(\{[^}]*\}|\w+);", text)
    return {*re.findall(r"\w+", " ".join(used)), *re.findall(r"(?m)^pub (?:fn|struct|enum|trait) (\w+)", text)}


def glossary():
    """The rows of the tables of GLOSSARY: their crates, none if they name none, and the names of this repository."""
    own, terms = (rows(section_of("docs/GLOSSARY.md", head)) for head in (
        "One word for one thing", "From the standards' terms to the names"))
    named = [("", names) for _, _, names in own] + [(crates, names) for _, names, crates, _ in terms]
    return [(spans(crates), spans(names)) for crates, names in named]


def calls_that_take_memory():
    """The public calls of libraries with a parameter `alloc: Global`, methods behind the name of their type."""
    found = set()
    for crate in set(CRATES) - NO_LIBRARY:
        for path in files_of(crate, "src"):
            owner = None
            heads = r"(?m)^impl(?:<[^>]*>)? (?:\w+ for )?(\w+)|^}|^( *)pub fn (\w+)(?:<[^>]*>)?\(([^)]*)\)"
            for match in re.finditer(heads, text_of(path)):
                if match[3] is None:
                    owner = match[1]
                    continue
                name = f"{owner}::{match[3]}" if match[2] and owner else match[3]
                if "alloc: Global" in match[4] and name.split("::")[0] in public(crate):
                    found.add(name)
    return found - KEEP_AN_ALLOCATOR


class Names(Case):
    def test_files(self):
        """documents: each file that they name is there"""
        for document in DOCUMENTS:
            lacking = []
            for head, body in sections(text_of(document)):
                places = ["", "crates", "include", "crates/iom_rows/data"]
                for word in " ".join(spans(head + "\n" + body)).split():
                    crate = re.fullmatch(r"(?:crates/)?(\w+)(?:/.*)?", word)
                    if crate and crate[1] in CRATES:
                        places += [f"crates/{crate[1]}{part}" for part in ("", "/src", "/specs", "/proofs")]
                    is_file = word.endswith(SUFFIXES) or re.fullmatch(r"\w[^.]*/.*", word)
                    is_other = word in OF_EACH or re.search(r"NAME|PATH|\.\.|^[A-Z]+$|[^\w.*/-]", word)
                    if is_file and not is_other and not is_there(word, *places):
                        lacking.append(word)
            self.assertEqual(lacking, [], document)

    def test_named(self):
        """README, MAP, CONTRIBUTING and MODEL: the names of the code in them are there"""
        tests = "".join(text_of(path) for path in [*names_there("tests/**/*.py"), *names_there("tests/**/*.t")])
        folders = ("crates/*/must-fail", "crates/*/edits", "crates/iom_rows/data", "examples", "tests/debugged")
        files = {stem(path) for folder in folders for path in names_there(f"{folder}/*")}
        for document, head in NAMING.items():
            text = section_of(document, head) if head else text_of(document)
            named = {name for name in spans(text) if re.fullmatch(NAME, name) and "NAME" not in name}
            named -= {*CRATES, *OTHERS, *commands(), "bad", *files}
            lacking = [it for it in sorted(named) if not has(CRATES, it) and not re.search(rf"\b{it}\b", tests)]
            self.assertEqual(lacking, [], document)

    def test_crates(self):
        """MAP: the crates are those of crates.txt, in its order"""
        there = [spans(cells[0])[0] for cells in rows(section_of("docs/MAP.md", ""))]
        self.assertEqual(there, list(CRATES))

    def test_rules(self):
        """MAP: each definition, function and type is in the file that it is named beside, or in its crate, and what a
        rule is tried by is there"""
        lacking = []
        for what, *cells, tried in rows(section_of("docs/MAP.md", "Where a rule lives")):
            for crate, path, name in beside("; ".join(cells)):
                if path and not is_there(path):
                    lacking.append((what, path))
                elif not (set(name.split("::")) <= defined(path) if path else has(below(CRATES, crate), name)):
                    lacking.append((what, path or crate, name))
            there = [it for it in spans(tried) if is_there(it, "", "crates") or is_there(f"{it}.script", "examples")]
            lacking += set(spans(tried)) - set(there)
        self.assertEqual(lacking, [])

    def test_sections(self):
        """PROMISES: each crate but those of tests has its exceptions; MODEL: each library with definitions has a section"""
        self.assertEqual(set(promised()), set(CRATES) - {"iom_tests", "iom_rows"})
        told = [spans(head)[0] for head, _ in sections(text_of("docs/MODEL.md")) if spans(head)]
        defining = {path.split("/")[1] for path in names_there("crates/*/specs/*.antt")} - {"iom_tests"}
        self.assertEqual(sorted(told), sorted(defining))

    def test_promises(self):
        """PROMISES: what a crate's exceptions name is the crate's, or of one below it; in parentheses stand clauses and
        functions"""
        for crate, body in promised().items():
            named = {name for name in spans(body) if re.fullmatch(r"[A-Za-z_][\w:-]*", name)}
            named -= {*CRATES, *commands(), "bad", "stale_translation"}
            self.assertEqual([it for it in sorted(named) if not has(below(CRATES, crate), it)], [], crate)
            texts = map(text_of, files_of(crate, "src"))
            there = {name for it in texts for name in [*clauses(it), *re.findall(r"\bfn (\w+)", it)]}
            groups = re.findall(r"\((`[a-z_]+`(?:, `[a-z_]+`)*)\)", body)
            self.want_within({name for it in groups for name in spans(it)}, there, crate)

    def test_memory(self):
        """PROMISES: the calls that take memory, and their tests, which refused_memory.sh tries; all tests stand in
        iom_tests"""
        listed = table_with("docs/PROMISES.md", "Call that takes memory")
        self.assertEqual(calls_that_take_memory(), {name for row in listed for name in spans(row[0])})
        tests = {name for row in listed for name in spans(row[1])}
        self.want_within(tests, defined("crates/iom_tests/src/refused.rt"))
        self.want_within(tests, re.findall(r"(?m)^(\w+) ", text_of("tests/refused_memory.sh")))
        with_tests = {path.split("/")[1] for path in names_there("crates/*/src/**/*.rt") if "#[test]" in text_of(path)}
        self.assertEqual(with_tests, {"iom_tests"})

    def test_glossary(self):
        """GLOSSARY: what looks like a name of the code is there"""
        for crates, names in glossary():
            places = {low for it in crates for low in below(CRATES, it)} or CRATES
            looking = [it for it in names if re.fullmatch(r"\w+(::\w+)*", it) and re.search("[_A-Z]", it)]
            self.assertEqual([it for it in looking if not has(places, it)], [], crates)

    def test_docstrings(self):
        """code: each public item and field has a docstring"""
        paths = [path for crate in CRATES for path in files_of(crate, "src")]
        for path in [*paths, *names_there("web/iom_page/src/**/*.page")]:
            text = re.sub(r"(?m)^ *#\[.*\n", "", text_of(path))
            self.assertEqual(re.findall(UNDOCUMENTED, text), [], path)

    def test_page(self):
        """the page's own crate, which only `make page` proves: each definition and lemma of another crate that it uses is there"""
        used = r"\buse Rattle\.(iom_\w+)\.(specs|proofs)\.([\w.]+)\.\{(.*?)\}"
        for path in names_there("web/iom_page/**/*.page"):
            for crate, part, file, names in re.findall(used, text_of(path)):
                if crate in CRATES:
                    is_type = file.startswith("declared.")
                    there = names_of(crate) if is_type else defined(f"crates/{crate}/{part}/{file.replace('.', '/')}.antt")
                    self.want_within(names.split(", "), there, path)

"""The documents as the tests read them, the man page, and what scripts are answered."""
import functools
import re

from frame import EXAMPLES, ROWS, TESTS, TOP, answers_of, text_of, words_of


def spans(text):
    return re.findall(r"`([^`]*)`", text)


def rows(text):
    """The cells of the rows of a text's tables, without the heads."""
    lines = text.splitlines()
    heads = {at - 1 for at, line in enumerate(lines) if re.match(r"\|-", line)}
    rows = [line for at, line in enumerate(lines) if line.startswith("| ") and at not in heads]
    return [[cell.strip() for cell in line.strip("|").split(" | ")] for line in rows]


def table_with(document, text):
    """The cells of the rows of the first table of a document that has this text."""
    tables = re.findall(r"(?m)^(?:\|.*\n)+", text_of(document))
    return rows(next(it for it in tables if text in it))


def sections(text):
    """The sections of a document by their heads; what is below a head of three stands with its section."""
    return re.findall(r"(?ms)^## (.*?)\n(.*?)(?=^## |\Z)", "## \n" + text)


def section_of(document, head):
    """A section of a document; the part above the first for an empty head."""
    return dict(sections(text_of(document)))[head]


def blocks(document):
    """The indented blocks of a document, without the indent."""
    return [re.sub(r"(?m)^    ", "", it) for it in re.findall(r"(?m)^\n((?:    .*\n)+)", text_of(document))]


def names_there(pattern):
    return sorted(str(path.relative_to(TOP)) for path in TOP.glob(pattern))


def section(name):
    """A section of the man page, as it stands in the file."""
    return re.search(rf"(?ms)^\.SH {name}$(.*?)(?=^\.SH |\Z)", text_of("man/rviommu.1"))[1]


def table(name):
    """The lines of the table of a section of the man page, without its head."""
    return re.search(r"(?ms)^\.EX\n(.*?)^\.EE$", section(name))[1].splitlines()[1:]


def plain(page):
    """The text of a man page, its fonts and macros taken away."""
    lines = []
    for line in page.splitlines():
        macro, _, rest = line.partition(" ")
        if macro in (".B", ".I", ".BI", ".BR", ".RB", ".RI", ".IR", ".SH", ".SS"):
            words = [quoted or word for quoted, word in re.findall(r'"([^"]*)"|(\S+)', rest)]
            line = (" " if macro in (".B", ".I", ".SH", ".SS") else "").join(words)
        elif line.startswith("."):
            continue
        lines.append(re.sub(r"\\f[RBI]", "", line.replace("\\-", "-").replace("\\en", "\\n")))
    return "\n".join(lines) + "\n"


def man_page():
    return plain(text_of("man/rviommu.1"))


def answered_lines(text):
    """The lines of a script that are answered, without what they want."""
    return [it for line in text.splitlines() if (it := line.partition("#")[0].strip())]


@functools.cache
def played():
    """Each line of the examples, the rows and tests/debugged with its answer, which other tests compare."""
    found = []
    wishes = [*(TESTS / "debugged").glob("*.script")]
    for path in [*EXAMPLES.glob("*.script"), *ROWS.glob("*.script")]:
        answers = answers_of(path).decode()
        if words_of(path.read_bytes())[0] == "check":
            wishes += [path] if answers.endswith(" passed, 0 failed\n") else []
        else:
            found += zip(answered_lines(path.read_text(encoding="utf-8", errors="replace")), answers.splitlines())
    for path in wishes:
        wanted = re.findall(r"(?m)^(.*?) *# => (?!any unsettled$)(.*?)(?: unsettled)?$", path.read_text(encoding="utf-8"))
        found += [(line.strip(), answer) for line, answer in wanted]
    return found

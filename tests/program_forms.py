"""The table of forms, crates/iom_tool/src/rows.rt: help, man page, README and completions have its rows."""
import re

from documents import man_page, plain
from frame import Case, text_of

# The names by which documents call an operand of each sort.
NAMES = {
    "Number": {"ADDR", "SIZE", "VALUE", "OFF", "DID", "IOVA", "LEN", "N", "I", "BYTE", "MAX"},
    "Register": {"NAME"}, "BlockRegister": {"NAME"}, "Data": {"DATA"}, "Item": {"ITEM"},
}
# The kinds of items that `show` and `list` take.
KINDS = ["cmd", "fault", "context", "dir", "pte", "msi", "u64"]
ROW = re.compile(r'(?m)^    Row\((Run|Debug), (.+), &\[(.+)\]\),$')
# The lines of a script of which README has a part.
SCRIPT = re.compile(r"(?ms)^    \$ cat > \S+ <<'end'\n(.*?)^    end$")


def rows(language):
    """The rows that are marked so: of each what it says, its words and the sorts of its operands."""
    found = []
    for marked, says, parts in ROW.findall(text_of("crates/iom_tool/src/rows.rt")):
        if marked == language:
            words = [re.sub(r'^Word\(b"(\w+)"\)$', r"\1", it) for it in parts.split(", ")]
            found.append((says, tuple(words)))
    return found


def forms_of(text):
    """The forms of a line of a document, each as words and sorts of operands: KIND and NAME may stand for several."""
    words = [it for it in text.split() if it != ".."]
    every = [()]
    for word in words:
        sorts = [sort for sort, names in NAMES.items() if word in names]
        choices = KINDS if word == "KIND" else sorts or [word]
        every = [(*form, choice) for form in every for choice in choices]
    return every


class Forms(Case):
    def compare(self, texts, language, where):
        """These texts have the rows of this language, each once."""
        own = [parts for _, parts in rows(language)]
        told = [form for text in texts for form in forms_of(text) if form in own]
        self.assertEqual(sorted(told), sorted(own), where)
        strange = [text for text in texts if not any(form in own for form in forms_of(text))]
        self.assertEqual(strange, [], where)

    def test_rows(self):
        """the table: its words differ row by row, the rows of run stand first, and the definition has the same"""
        every = [parts for language in ("Run", "Debug") for _, parts in rows(language)]
        self.assertEqual(len(every), len(set(every)))
        marks = [mark for mark, _, _ in ROW.findall(text_of("crates/iom_tool/src/rows.rt"))]
        self.assertEqual(marks, sorted(marks, reverse=True))
        stated = re.findall(r"row (Run|Debug) ", text_of("crates/iom_tool/specs/Script.antt"))
        self.assertEqual(stated, marks)

    def test_help(self):
        """help: the tables of the general help and of debug's are its rows"""
        for words, language in ((["--help"], "Run"), (["debug", "--help"], "Debug")):
            lines = re.findall(r"(?m)^  ([a-z]+(?: (?:[a-z]+|[A-Z]+|\.\.|,))*,?[^\n]*)$", self.written(words))
            texts = [part for line in lines for part in re.split(r"  +", line)[0].split(", ")]
            own = {parts[0] for _, parts in rows(language)}
            self.compare([it for it in texts if it.split()[0] in own], language, words)

    def test_man_page(self):
        """man page: each row has a paragraph, those of run in the first section and those of debug in the second"""
        page = text_of("man/rviommu.1")
        lines = page[page.index(".BI load") : page.index(".SH ANSWERS")]
        run, debug = lines.split(".SS Lines of debug, check and explain")
        for text, language in ((run, "Run"), (debug, "Debug")):
            own = [parts for _, parts in rows(language)]
            heads = [plain(it).replace('"', "") for it in re.findall(r"(?m)^\.B[IR]? (.*)$", text)]
            texts = [part for head in heads for part in head.split(", ")]
            self.compare([it for it in texts if any(form in own for form in forms_of(it))], language, language)

    def test_answers(self):
        """man page: the table of answers has the words of each row"""
        page = man_page()
        answers = page[page.index("ANSWERS") :]
        for language in ("Run", "Debug"):
            for says, parts in rows(language):
                if "Register" in parts or "BlockRegister" in parts:
                    continue
                words = " ".join(it for it in parts if it not in NAMES and not says.startswith("Show"))
                self.assertRegex(answers, rf"(?m)(^|, ) *{words or 'show'}\b", says)

    def test_readme(self):
        """README: the lines of its script are lines of run or of debug"""
        own = [parts for language in ("Run", "Debug") for _, parts in rows(language)]
        script = SCRIPT.search(text_of("README.md"))[1]
        for line in script.splitlines():
            words = line.split("#")[0].split()
            fits = [parts for parts in own if parts[0] == words[0] and (parts[-1] == "Item" or len(parts) == len(words))
                    and all(part == word for part, word in zip(parts, words) if part not in NAMES)]
            self.assertTrue(fits, line)

    def test_completions(self):
        """completions: the kinds of items that bash and zsh offer for list are those of show"""
        kinds = [parts[1] for says, parts in rows("Run") if says.startswith("Show")]
        self.assertEqual(kinds, KINDS)
        self.assertIn(f'compgen -W "{" ".join(kinds)}"', text_of("completions/rviommu.bash"))
        self.assertIn(f"_values 'kind' {' '.join(kinds)} ;;", text_of("completions/_rviommu"))

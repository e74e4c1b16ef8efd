"""What the prover says of a wrong body, and the verdict that tests/edits.py gives by it."""
import edits
from frame import Case

HAS_BIT = """pub fn has_bit(word: u64, bit: u32) -> bool
    ensures { result ≡ has_bit word bit }
{
    (word >> bit) & 3 == 1
}
"""
AT = "src/bit_fields.rt:1:1: it is not proved that what the function ensures holds when it returns (`returns`)"
EXPECTED = "no proof: expected answers in ./proofs/bit_fields/has_bit/Answers.antt; `search` did not prove `returns`"
ANSWER = "use Rattle.iom_bits.proofs.bit_fields.has_bit.Goals as goal\n\npub returns : goal.returns\nreturns c = "
# Where the term of that answer begins.
TERM = "proofs/bit_fields/has_bit/Answers.antt:4:13: error: `returns`: "
IN_TERM = "proofs/bit_fields/has_bit/Answers.antt:4:27: error: `returns`: "
ALL_TRIED = """`search`: no proof of `mathlib.Core.Path.◌≡◌ 23 (Rattle.iom_bits.specs.Causes.cause_number c.args.self)`
  was found. Every way was tried: a deeper search would find nothing either. These fit the goal, but a premise of each
  so these may not break the goal: the goal fails at `c.args.self` = `1`"""
ENDED = """`search`: no proof of `◌≡◌ 1 2`
  was found. Every way was tried: a deeper search would find nothing either. `grind` was asked too, since the list holds
  `arith`. In its own words: `grind` stopped at its own limit of instances of lemmas, so the goal may hold"""
STOPPED = "`grind` stopped at its own limit of 4000000 steps (`steps n` at the end of a call of `grind` sets it), so the goal may hold"
FAILS = "`grind`: the goal does not follow. The hypotheses hold, and the goal fails at `c.args.set` = `mathlib.Core.Bool.false`"
OTHER_TYPE = "as printed, the two types first differ where one has `lib.Bits.bit_or` (expected)"
NOT_COVERED = (
    "no proof: expected `f_spec` in ./proofs/bit_fields/has_bit/Proof.antt; the borrow checker does not cover this "
    "function yet: src/bit_fields.rt:4:5: a field that is an array is stored")


def verdict(line, *faults, answer=None, functions=("bit_fields::has_bit",)):
    """The verdict of an edit of `has_bit`, of which a check says this line and these faults."""
    texts = {"src/bit_fields.rt": HAS_BIT}
    if answer:
        texts["proofs/bit_fields/has_bit/Answers.antt"] = ANSWER + answer
    said = "".join(f"{'note: ' if it.startswith('src/') else './'}{it}\n" for it in faults)
    said += f"fn iom_bits::bit_fields::has_bit: {line}\nfn iom_bits::bit_fields::flag: proved\n"
    found = edits.Verdicts(said, "iom_bits", edits.Sources(texts))
    return found.judge(edits.Edit("a.edit", [], set(functions) if functions else None))[0]


class Edits(Case):
    def test_a_goal_without_an_answer(self):
        """It is refused if it is false at some values, or if the search tried all, and not if that ended at a limit."""
        self.assertEqual(verdict(EXPECTED, f"{AT}; the facts known there allow values at which this goal is false"), edits.REFUSED)
        self.assertEqual(verdict(EXPECTED, AT), edits.REFUSED)
        for by in ("search", "grind"):
            self.assertEqual(verdict(EXPECTED, f"{AT}; `{by}` gave up at one of its limits"), edits.BY_FORM)

    def test_an_answer_that_is_a_search(self):
        for said, wanted in ((ALL_TRIED, edits.REFUSED), (FAILS, edits.REFUSED), (STOPPED, edits.BY_FORM), (ENDED, edits.BY_FORM)):
            self.assertEqual(verdict("not proved", TERM + said, answer="grind (arith, common_steps)\n"), wanted)

    def test_another_answer(self):
        """It says nothing of its goal, even where a search in it tried all or found values."""
        for said in (OTHER_TYPE, ALL_TRIED, FAILS, STOPPED):
            answer = "let fits = search rules in field_is fits\n"
            self.assertEqual(verdict("not proved", IN_TERM + said, answer=answer), edits.BY_FORM)
        self.assertEqual(verdict("not proved", TERM + OTHER_TYPE, answer="field_is c.args.word\n"), edits.BY_FORM)

    def test_a_goal_that_has_another_answer(self):
        """Without that answer it is refused only if it is false at some values."""
        sources = edits.Sources({
            "src/bit_fields.rt": HAS_BIT, "proofs/bit_fields/has_bit/Answers.antt": f"{ANSWER}field_is c.args.word\n"})
        for said, is_refused in ((AT, False), (f"{AT}; the facts known there allow values at which this goal is false", True)):
            said = f"note: {said}\nfn iom_bits::bit_fields::has_bit: {EXPECTED}\n"
            found = edits.Verdicts(said, "iom_bits", sources.without_answers({"bit_fields::has_bit"}))
            self.assertEqual(found.refusal({"bit_fields::has_bit"}) is not None, is_refused)

    def test_goals_with_other_names(self):
        """A search that tried all says nothing where the crate as it is needs another answer, perhaps of this goal."""
        named = "proofs/bit_fields/has_bit/Answers.antt:3:15: error: `goal.returns` is not in scope"
        for answer in ("field_is c.args.word\n", "search (rules, field_is)\n"):
            self.assertEqual(verdict("not proved", named, AT, answer=answer), edits.BY_FORM)
            self.assertIsNone(verdict("not proved", named, answer=answer))
        self.assertEqual(verdict("not proved", named, AT, answer="search rules\n"), edits.REFUSED)

    def test_a_function_that_is_not_covered(self):
        self.assertEqual(verdict(NOT_COVERED), edits.BY_FORM)

    def test_a_function_that_is_proved_or_was_not_tried(self):
        self.assertEqual(verdict("proved"), edits.PROVED)
        self.assertIsNone(verdict("no proof: it calls `iom_bits::bit_fields::flag`, which is not proved"))

    def test_a_law(self):
        """Of a definition that changed: a law's proof says nothing of a contract, and a function's goal does."""
        law = f"proofs/Fields.antt:9:3: error: `field_is`: {OTHER_TYPE}"
        self.assertEqual(verdict("not proved", law, functions=()), edits.BY_FORM)
        self.assertEqual(verdict(EXPECTED, law, AT, functions=()), edits.REFUSED)

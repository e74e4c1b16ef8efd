"""A crate of the repository and all that it stands on, as one crate of the same name.

The kit has no way to check several crates as one: `rt all` and `rt ci` go crate by crate (REPOSITORY.md of the kit,
"Several crates"), and each check reads the toolchain's libraries anew and waits for the crates below.

The crates below become modules. Code, definitions, contracts and proofs are those of the crates; only the paths differ
by which they name one another:

    crates/iom_bits/src/lib.rt, src/causes.rt       src/iom_bits.rt, src/iom_bits/causes.rt
    crates/iom_bits/specs/Bits.antt                 specs/iom_bits/Bits.antt
    crates/iom_bits/proofs/Fields.antt              proofs/iom_bits/Fields.antt
    iom_bits::Kind, and crate::causes in iom_bits   crate::iom_bits::Kind, crate::iom_bits::causes
    iom_bits::specs::Bits                           crate::specs::iom_bits::Bits
    Rattle.iom_bits.specs.Bits                      Rattle.NAME.specs.iom_bits.Bits
    Rattle.iom_bits.specs.declared.causes           Rattle.NAME.specs.declared.iom_bits.causes

A module of a crate's root is public in the whole one, since definitions of other crates name its types.
"""
import re

import crates

TACTICS = "#![tactic(auto)]\n"


class Whole:
    """The whole crate of one and of all that it stands on."""

    def __init__(self, top):
        uses = {name: uses for name, (_, uses) in crates.listed().items()}
        wanted = crates.below(crates.stands_on(), top)
        self.top, self.below = top, [it for it in wanted if it != top]
        self.libraries = sorted({it for name in wanted for it in uses[name] if it not in uses})
        self.names = "|".join(sorted(self.below, key=len, reverse=True))

    def definitions(self, text):
        """A text that names definitions and proofs, as the whole crate names them."""
        stated = rf"\bRattle\.({self.names})\.specs\.(declared|contracts)\b"
        text = re.sub(stated, rf"Rattle.{self.top}.specs.\2.\1", text)
        return re.sub(rf"\bRattle\.({self.names})\.(specs|proofs)\b", rf"Rattle.{self.top}.\2.\1", text)

    def code(self, text, name):
        """A text of the crate `name`, with the paths of the whole crate."""

        def path(found):
            crate = name if found[1] == "crate" else found[1]
            return found[0] if crate == self.top else f"crate::{found[2] or ''}{crate}::"

        return re.sub(rf"(?<![\w:])(crate|{self.names})::(specs::|proofs::)?", path, text)

    def root(self, text):
        """The root of a crate below, as a module."""
        return re.sub(r"^mod (\w+);", r"pub mod \1;", text.replace(TACTICS, ""), flags=re.MULTILINE)

    def own_root(self, text):
        """The root of the top crate, which declares the others."""
        head, mark, rest = text.partition(TACTICS)
        return head + mark + "\n" + "".join(f"pub mod {it};\n" for it in self.below) + rest

    def files(self):
        """The texts of the whole crate, by their paths in its folder."""
        found = {}
        for name in [*self.below, self.top]:
            for path, text in crates.texts(crates.FOLDER / name).items():
                part, _, rest = path.partition("/")
                text = self.definitions(text)
                if part == "src":
                    text = self.code(text, name)
                if name == self.top:
                    found[path] = self.own_root(text) if rest in ("main.rt", "lib.rt") else text
                elif rest == "lib.rt":
                    found[f"src/{name}.rt"] = self.root(text)
                elif rest == "Lib.antt":
                    found[f"{part}/{name}.antt"] = text
                else:
                    found[f"{part}/{name}/{rest}"] = text
        lines = "".join(f"pub mod {it}\n" for it in self.below if f"specs/{it}.antt" in found)
        found["specs/Lib.antt"] = found.get("specs/Lib.antt", "") + lines
        return found

    def write(self, folder, words):
        """Writes the whole crate into a folder, with a list of crates that has only it: its name and `words`."""
        for path, text in self.files().items():
            path = folder / "crates" / self.top / path
            path.parent.mkdir(parents=True, exist_ok=True)
            path.write_text(text, encoding="utf-8")
        line = f"{' '.join([self.top, *words])}: {' '.join(self.libraries)}\n"
        (folder / "crates.txt").write_text(line, encoding="utf-8")

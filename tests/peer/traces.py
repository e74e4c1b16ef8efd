"""QEMU's answers to a case as a trace, of which `judge` says what no IOMMU that the standard allows could answer.

What is seen is what a driver and its devices see: the bytes that are read, the cause in a new record, cqh and fqt
behind each step, and other registers where the case looks at them. QEMU's bus cuts a refused access in pieces, so each
piece is a line. QEMU carries out commands by itself, so its commands are hidden.
"""
import re
import subprocess
import tempfile

from model import CQH, CQT, FQT

# These make no difference to what is seen, or only one that each IOMMU may make.
FREE = {
    *(f"cache-policy-{it}" for it in ("global", "identity", "msi", "rviommu-drops", "size")),
    *(f"record-{it}" for it in ("iotval", "iotval2", "pv", "ttyp")), "access-in-pieces"}
UNDECIDED = ": undecided, "


class Trace:
    """The lines of a case with what was seen of QEMU. Of each line stands beside it which classes were met by then that
    aren't free, and whether the standard's model says the same."""

    def __init__(self):
        self.lines, self.met, self.same = [], [], []

    def add(self, step, own, peer):
        """A step, behind which the standard's model and QEMU's stand."""
        kind, *rest = step
        self.classes = (own.model.met | peer.model.met) - FREE
        if kind in ("read", "write", "msi"):
            self.access("read" if kind == "read" else "write", peer.ids[rest[0]], rest[3], own.model, peer.model)
        elif kind == "store":
            self.line(f"store {rest[0]:#x} 8 {rest[1]:#x}")
        elif kind == "look":
            self.look(*rest, own.model, peer.model)
        else:
            offset, size, value = rest if kind == "reg" else (CQT, 4, *rest)
            self.line(f"reg write {offset} {size} {value:#x}")
        for register in (CQH, FQT):
            self.look(register, 4, own.model, peer.model)

    def line(self, line, seen=None, other=None):
        """A line of which this was seen, where the standard's model says the other."""
        self.lines.append(f"{line} # => {seen}" if seen else line)
        self.met.append(self.classes)
        self.same.append(seen in (None, other))

    def look(self, offset, size, own, peer):
        value, other = peer.read(offset, size), own.read(offset, size)
        self.line(f"reg read {offset} {size}", hex(value), "bad access" if other is None else hex(other))

    def access(self, kind, did, data, own, peer):
        """The pieces of an access."""
        others = {piece.iova: piece.seen for piece in own.pieces}
        for iova, length, seen in peer.pieces:
            at = iova - peer.pieces[0].iova
            end = data[at : at + length].hex() if kind == "write" else length
            self.line(f"dma {kind} {did:#x} {iova:#x} {end}", seen, others.get(iova))

    def judged(self, program, image):
        """The lines that are refused, by their indexes, each with what is told of it; and how many lines are judged:
        from the first one on that isn't decided none is."""
        script = "".join(f"{line}\n" for line in self.lines).encode()
        with tempfile.NamedTemporaryFile() as file:
            file.write(image)
            file.flush()
            words = [program, "judge", "--hidden", "--image", file.name]
            ended = subprocess.run(words, input=script, stdout=subprocess.PIPE)
        assert ended.returncode in (0, 1), f"judge ended with {ended.returncode}"
        refused, end = {}, len(self.lines)
        for line, said in re.findall(r"(?m)^line (\d+): (.*)$", ended.stdout.decode()):
            if UNDECIDED in said:
                end = int(line) - 1
            else:
                refused[int(line) - 1] = said
        return refused, end

    def unexplained(self, program, image, counts):
        """What is told of the lines that are refused before a class was met. Counts traces, the answers that are judged,
        those that are refused, those of the others that the standard's model doesn't give, where only free classes were
        met too, and traces that aren't decided to their end."""
        refused, end = self.judged(program, image)
        seen = [at for at, line in enumerate(self.lines[:end]) if "# =>" in line]
        others = [at for at in seen if at not in refused and not self.same[at]]
        counts.update(traces=1, answers=len(seen), refused=len(refused), undecided=end < len(self.lines))
        counts.update(others=len(others), free=sum(not self.met[at] for at in others))
        return [f"judge, {told}" for at, told in refused.items() if not self.met[at]]

"""The IOMMU in SystemVerilog of examples/cosimulation, if there is Verilator: none of its answers is refused, and each
planted bug is."""
import re
import shutil

from frame import EXAMPLES, Case, called, run

# For each planted bug the line that tells it: a use of what was dropped, a write by a read's translation, an iotval2.
BUGS = {1: r"dma \w+ \d 0x\w+ \w+", 2: r"dma write \d 0x\w+ \w{16}", 3: r"load 0x800a0\w\w8 8"}
TRANSACTIONS = 3000


class Cosimulation(Case):
    def test_bugs(self):
        """10,000 transactions are allowed, and of each planted bug the first refused line is the one that tells it"""
        self.needs("verilator", "make", "g++")
        folder = shutil.copytree(EXAMPLES / "cosimulation", self.path("cosimulation"), ignore=shutil.ignore_patterns("out"))
        told = {}
        for bug in (0, *BUGS):
            count = TRANSACTIONS if bug else 10000
            called(["make", f"out/iommu{bug}.trace", f"BUG={bug}", f"TRANSACTIONS={count}"], cwd=folder)
            out = run(["judge", f"out/iommu{bug}.trace"], cwd=folder)[1].decode()
            told[bug] = re.findall(r"(?m)^out/iommu\d\.trace:\d+: (.*): seen .*, allowed: ", out)
        self.assertEqual(told.pop(0), [])
        for bug, lines in told.items():
            self.assertRegex(lines[0] if lines else "none", f"^{BUGS[bug]}$", bug)

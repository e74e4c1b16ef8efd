"""Debian's packages in a folder: fetched by apt-get with a configuration of its own, and unpacked, not installed.

Nothing here needs root, and apt's own lists and packages stay as they are.
"""
import re
import subprocess
from pathlib import Path

KEYRING = Path("/usr/share/keyrings/debian-archive-keyring.gpg")
ARCHIVE = "http://deb.debian.org/debian"


class Missing(Exception):
    """Something that is needed and isn't there, in one line."""


def output(command, **options):
    """The standard output of a command. If it fails, the fault has its last line."""
    try:
        run = subprocess.run(command, capture_output=True, text=True, check=False, **options)
    except FileNotFoundError as fault:
        raise Missing(f"{command[0]} is not on the path") from fault
    if run.returncode != 0:
        lines = (run.stderr or run.stdout).strip().splitlines() or ["no reason given"]
        raise Missing(f"{command[0]} failed: {lines[-1]}")
    return run.stdout


class Packages:
    """The packages of some suites for one architecture; `folder` keeps apt's lists and the packages."""

    def __init__(self, folder, architecture, lines):
        self.folder = Path(folder).resolve()
        if not KEYRING.exists():
            raise Missing(f"{KEYRING} is not there (Debian's package debian-archive-keyring)")
        for name in ("lists/partial", "cache/archives/partial", "fetched"):
            (self.folder / name).mkdir(parents=True, exist_ok=True)
        status = self.folder / "status"
        status.touch()
        sources = [f"{kind} [{options}signed-by={KEYRING}] {ARCHIVE} {suite} main\n" for kind, options, suite in lines]
        (self.folder / "sources.list").write_text("".join(sources))
        settings = {
            "APT::Architecture": architecture, "Dir::State": self.folder, "Dir::State::status": status,
            "Dir::Cache": self.folder / "cache", "Dir::Etc::sourcelist": self.folder / "sources.list",
            "Dir::Etc::sourceparts": "/nonexistent", "APT::Sandbox::User": "root",
        }
        text = "".join(f'{key} "{value}";\n' for key, value in settings.items())
        (self.folder / "apt.conf").write_text(text + f'APT::Architectures {{ "{architecture}"; }};\n')
        self.options = ["-c", str(self.folder / "apt.conf"), "-q"]
        self.records = {}
        output(["apt-get", *self.options, "update"])

    def look_up(self, names):
        """Keeps the fields of these packages."""
        text = output(["apt-cache", *self.options, "show", "--no-all-versions", *names])
        for part in text.split("\n\n"):
            fields = dict(re.findall(r"(?m)^([A-Z][\w-]*): (.*)$", part))
            self.records.setdefault(fields.get("Package"), fields)

    def depends(self, name):
        """The names of the packages that one depends on, alternatives too."""
        self.look_up([name])
        return re.findall(r"(?:^|[,|]) *([^\s,|(]+)", self.records[name].get("Depends", ""))

    def fetched(self, name):
        """The file of a package that was looked up."""
        version = self.records[name]["Version"].replace(":", "%3a")
        there = list((self.folder / "fetched").glob(f"{name}_{version}_*.deb"))
        if not there:
            output(["apt-get", *self.options, "download", name], cwd=self.folder / "fetched")
            there = list((self.folder / "fetched").glob(f"{name}_{version}_*.deb"))
        return there[0]

    def unpacked(self, names, target):
        """Unpacks packages into a folder, each one once."""
        target.mkdir(parents=True, exist_ok=True)
        self.look_up(names)
        for name in names:
            package = self.fetched(name)
            mark = target / f".{package.name}"
            if not mark.exists():
                output(["dpkg", "-x", str(package), str(target)])
                mark.touch()
        return target

    def source(self, name, version):
        """The unpacked source of a package whose version starts with this, and its whole version."""
        text = output(["apt-cache", *self.options, "showsrc", name])
        versions = [it for it in re.findall(r"(?m)^Version: (.*)$", text) if it.partition(":")[2].startswith(version)]
        if not versions:
            raise Missing(f"no source of {name} {version} at {ARCHIVE}")
        faults = []
        for it in versions:
            target = self.folder / f"{name}-{re.sub('[^0-9A-Za-z.]', '-', it)}"
            if target.exists():
                return target, it
            try:
                output(["apt-get", *self.options, "source", "--download-only", f"{name}={it}"], cwd=self.folder / "fetched")
            except Missing as fault:
                faults.append(fault)
                continue
            description = self.folder / "fetched" / f"{name}_{it.partition(':')[2]}.dsc"
            output(["dpkg-source", "--no-check", "-x", str(description), str(target)])
            return target, it
        raise faults[0]

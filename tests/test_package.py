"""What `make package` makes of the built program: a folder, a .tar.gz and a .deb for a machine without a toolchain."""
import os
import pty
import re
import select
import shutil
import subprocess
import tarfile
import time
from pathlib import Path
from tempfile import TemporaryDirectory

from tests import TOP
from tests.drivers.program import SECONDS, program
from tests.runner.case import Case
from tests.test_pages import LINK
from tools import package

COMMANDS = sorted({path.stem for path in (TOP / "tests/help").iterdir()} - {"slotplan"})
# What lies in the folder beside pages and manual pages: each file with its mode.
FILES = {
    "bin/slotplan": 0o755,
    "bin/slotplan-plans": 0o755,
    "sbin/slotplan-backup": 0o755,
    "lib/systemd/system/slotplan@.service": 0o644,
    "lib/systemd/system/slotplan-backup@.service": 0o644,
    "lib/systemd/system/slotplan-backup@.timer": 0o644,
    "share/bash-completion/completions/slotplan": 0o644,
    "share/zsh/site-functions/_slotplan": 0o644,
    "share/slotplan/nginx/slotplan.conf": 0o644,
    "share/slotplan/README.md": 0o644,
    "share/slotplan/docs/OPERATE.md": 0o644,
    "share/slotplan/docs/openapi.yaml": 0o644,
    "share/slotplan/clients/wireshark/__main__.py": 0o644,
    "share/slotplan/examples/first.script": 0o644,
}
# Calls of bash's completion: the words of the line, and what may stand in place of the last one.
COMPLETED = [
    (["ser"], ["serve"]),
    (["s"], ["schedule", "serve"]),
    (["serve", ""], ["car.db", "my plan.csv"]),
    (["serve", "car.db", ""], []),
    (["serve", "car.db", "--"], ["--count", "--help", "--memory", "--seconds"]),
    (["serve", "--count", "c"], []),
    (["serve", "--count", "4", "c"], ["car.db"]),
    (["check", "--register", "c"], ["car.db"]),
    (["import", "car.db", "-", "v1", "week47", "m"], ["my plan.csv"]),
    (["export", "car.db", "v1", ""], ["frames", "placements", "signals"]),
    (["export", "car.db", "v1", "--part", "3", "p"], ["placements"]),
    (["explain", "Cell"], ["CellTaken"]),
    (["help", "ex"], ["explain", "export"]),
]
COMPLETE = """\
source "$1"
shift
COMP_WORDS=(slotplan "$@")
COMP_CWORD=$#
_slotplan
printf '%s\\n' "${COMPREPLY[@]}"
"""

# What is done in a machine that has neither toolchain nor python3, with what is printed.
TYPED = r"""umask 077; cd /root
sed '/^---$/,$d' PREFIX/share/slotplan/examples/first.script > cluster.toml
slotplan create car.db cluster.toml
sed '1,/^---$/d' PREFIX/share/slotplan/examples/first.script | slotplan ask car.db
slotplan schedule car.db v1
"""
PRINTED = '{"ok":"done"}\n' * 5 + '{"lines":["00 0001 A f1 n1"],"ok":"schedule"}\n00 0001 A f1 n1 s1\n'


class Made(Case):
    """It is made once for the tests of a class."""

    @classmethod
    def setUpClass(cls):
        super().setUpClass()
        cls.to = Path(cls.enterClassContext(TemporaryDirectory()))
        plans = cls.to / "slotplan-plans"
        for words in ["clients.archive", plans], ["tools.package", program(), plans, cls.to / "package"]:
            subprocess.run(["python3", "-m", *words], cwd=TOP, check=True, stdout=subprocess.DEVNULL)
        (cls.tree,) = (path for path in (cls.to / "package").iterdir() if path.is_dir())

    def one(self, ending):
        """The one file with this ending."""
        (path,) = (self.to / "package").glob(f"*{ending}")
        return path


class Folder(Made):
    """The folder has what is wanted of it, the archive has the same, and the program needs the C library alone."""

    def test_files(self):
        wanted = {**FILES, **{f"share/man/man1/slotplan-{name}.1": 0o644 for name in (*COMMANDS, "plans")}, "share/man/man1/slotplan.1": 0o644}
        self.see("files and modes", wanted, {name: (self.tree / name).stat().st_mode & 0o777 if (self.tree / name).is_file() else None for name in wanted})
        manuals = {path.name for path in (self.tree / "share/man/man1").iterdir()}
        self.see("manual pages", {Path(name).name for name in wanted if "/man1/" in name}, manuals)
        self.see("the program is the one that was built", Path(program()).read_bytes(), (self.tree / "bin/slotplan").read_bytes())

    def test_archive(self):
        with tarfile.open(self.one(".tar.gz")) as archive:
            members = archive.getmembers()
        there = {str(path.relative_to(self.tree.parent)) for path in self.tree.rglob("*")} | {self.tree.name}
        self.see("what it has", there, {it.name for it in members})
        self.see("whose it is", {(0, 0)}, {(it.uid, it.gid) for it in members})

    def test_links(self):
        """Each link of a page leads to a file of the folder."""
        pages = sorted((self.tree / "share/slotplan").rglob("*.md"))
        links = [(page, to) for page in pages for to, _ in LINK.findall(page.read_text()) if to and ":" not in to]
        self.see("there are many", True, len(links) > 60)
        self.see("links that lead nowhere", [], [f"{page.name}: {to}" for page, to in links if not (page.parent / to).exists()])

    def test_library(self):
        if not shutil.which("ldd"):
            self.skipTest("there is no ldd")
        needed = subprocess.run(["ldd", program()], capture_output=True, text=True, check=True).stdout
        names = {Path(line.split()[0]).name for line in needed.splitlines()}
        self.see("libraries", ["ld-linux", "libc", "linux-vdso"], sorted(re.sub(r"[-.](x86|aarch|so).*", "", name) for name in names))
        self.see("the C library's version, as README has it", "2.34", package.library_of(program()))

    def test_shown(self):
        """Units and nginx's example are those of the page on operating; the installed script makes its backups by the program beside it."""
        page = (TOP / "docs/OPERATE.md").read_text()
        for name in FILES:
            if name.startswith(("lib/", "sbin/", "share/slotplan/nginx/")):
                text = (self.tree / name).read_text()
                self.see(f"{name} stands on the page", (True, True), (len(text) > 100, f"\n{text}```\n" in page))
        unit = (self.tree / "lib/systemd/system/slotplan@.service").read_text()
        self.see("what the unit starts", True, "\nExecStart=/usr/local/bin/slotplan serve " in unit)

    def test_bash(self):
        """It completes commands, options, files and words behind `slotplan`."""
        for name in "car.db", "my plan.csv":
            (self.folder / name).touch()
        for words, wanted in COMPLETED:
            completed = ["bash", "--norc", "-c", COMPLETE, "bash", self.tree / "share/bash-completion/completions/slotplan", *words]
            got = subprocess.run(completed, cwd=self.folder, capture_output=True, text=True, timeout=SECONDS)
            self.see(f"behind {words}", (wanted, ""), (sorted(filter(None, got.stdout.split("\n"))), got.stderr))


class Elsewhere(Made):
    """What needs more than the gate has: zsh, man, systemd, dpkg-deb, and a clean root, which CLEAN_ROOT names, as debootstrap makes one; it is not changed."""

    may_be_skipped = True

    def test_zsh(self):
        if not shutil.which("zsh"):
            self.skipTest("there is no zsh")
        (self.folder / "car.db").touch()
        completed = {"serv": "slotplan serve ", "export car.db v1 pl": "slotplan export car.db v1 placements", "serve ca": "slotplan serve car.db"}
        for words, wanted in completed.items():
            self.see(f"behind {words}", True, wanted in self.typed(f"slotplan {words}\t"))

    def typed(self, text):
        """What a shell that is typed to shows."""
        child, terminal = pty.fork()
        if child == 0:
            os.chdir(self.folder)
            os.execvpe("zsh", ["zsh", "-f"], {**os.environ, "TERM": "dumb", "HOME": str(self.folder)})
        begin = f"PS1='> '; fpath=({self.tree}/share/zsh/site-functions $fpath); autoload -U compinit; compinit -u -D; echo rea''dy\n"
        try:
            shown = self.until(terminal, begin, "ready\r\n")
            return self.until(terminal, text, "\r\n", seconds=3) if "ready" in shown else shown
        finally:
            os.close(terminal)
            os.waitpid(child, 0)

    def until(self, terminal, text, end, seconds=SECONDS):
        """What is shown behind this text, up to an end, or for so long."""
        os.write(terminal, text.encode())
        shown, until = "", time.monotonic() + seconds
        while end not in shown and time.monotonic() < until:
            if select.select([terminal], [], [], 0.1)[0]:
                shown += os.read(terminal, 65536).decode(errors="replace")
        return shown

    def test_manuals(self):
        """man prints each page without a word of its own, and the page has what the help says."""
        if not shutil.which("man"):
            self.skipTest("there is no man")
        for name in COMMANDS:
            words = ["man", "--warnings", "-E", "ascii", "-l", self.tree / f"share/man/man1/slotplan-{name}.1"]
            got = subprocess.run(words, env={**os.environ, "MANWIDTH": "200", "LC_ALL": "C"}, capture_output=True, text=True, timeout=SECONDS)
            shown = " ".join(re.sub(".\b", "", got.stdout).split())
            help = (TOP / f"tests/help/{name}.txt").read_text()
            told = [line.split("  ")[-1].strip() for line in help.splitlines() if line.startswith(("  ", "Usage"))]
            wanted = [help.splitlines()[0], *(line.removeprefix("Usage: ") for line in told)]
            self.see(f"{name}: what man warns of", "", got.stderr)
            self.see(f"{name}: what its page lacks", [], [line for line in wanted if " ".join(line.split()) not in shown])

    def test_units(self):
        """systemd finds no fault in the units."""
        if not shutil.which("systemd-analyze"):
            self.skipTest("there is no systemd-analyze")
        units = []
        for path in (self.tree / "lib/systemd/system").iterdir():
            units.append(self.folder / path.name.replace("@", "@car"))
            units[-1].write_text(path.read_text().replace("/usr/local/", f"{self.tree}/"))
        got = subprocess.run(["systemd-analyze", "verify", *units], capture_output=True, text=True, timeout=SECONDS)
        self.see("three units, and what is said of them", (3, 0, ""), (len(units), got.returncode, got.stdout + got.stderr))

    def debian(self):
        """The .deb unpacked."""
        if not shutil.which("dpkg-deb"):
            self.skipTest("there is no dpkg-deb")
        subprocess.run(["dpkg-deb", "-R", self.one(".deb"), self.folder / "tree"], check=True)
        return self.folder / "tree"

    def test_debian_files(self):
        """The .deb has the same below /usr."""
        unpacked = self.debian()
        moved = {"share/zsh/site-functions/_slotplan": "share/zsh/vendor-completions/_slotplan"}
        self.see("files that it lacks", [], [name for name in FILES if not (unpacked / "usr" / moved.get(name, name)).is_file()])
        unit = (unpacked / "usr/lib/systemd/system/slotplan@.service").read_text()
        self.see("what the unit starts", (True, False), ("\nExecStart=/usr/bin/slotplan serve " in unit, "/usr/local" in unit))

    def test_debian_fields(self):
        unpacked = self.debian()
        fields = dict(line.split(": ", 1) for line in (unpacked / "DEBIAN/control").read_text().splitlines() if not line.startswith(" "))
        self.see("name and needs", ("slotplan", "libc6 (>= 2.34), passwd"), (fields["Package"], fields["Depends"]))
        version = subprocess.run([program(), "--version"], capture_output=True, text=True, check=True).stdout
        self.see("version", "1.0~unproved" if "unproved" in version else "1.0", fields["Version"])
        for name in "postinst", "prerm", "postrm":
            status = subprocess.run(["sh", "-n", unpacked / f"DEBIAN/{name}"]).returncode
            self.see(f"{name} can be read and run", (0, 0o755), (status, (unpacked / f"DEBIAN/{name}").stat().st_mode & 0o777))

    def begin(self):
        if os.geteuid() or not os.environ.get("CLEAN_ROOT"):
            self.skipTest("CLEAN_ROOT names no folder of debootstrap, or you are not root")
        self.root, upper, work = (self.folder / name for name in ("root", "upper", "work"))
        for path in self.root, upper, work:
            path.mkdir()
        layers = f"lowerdir={os.environ['CLEAN_ROOT']},upperdir={upper},workdir={work}"
        subprocess.run(["mount", "-t", "overlay", "overlay", "-o", layers, self.root], check=True)
        self.addCleanup(subprocess.run, ["umount", self.root], check=True)
        for ending in ".tar.gz", ".deb":
            shutil.copy(self.one(ending), self.root / "tmp")

    def does(self, line):
        """What a line prints that is typed there."""
        path = {"PATH": "/usr/local/bin:/usr/bin:/usr/sbin:/bin:/sbin"}
        got = subprocess.run(["chroot", self.root, "sh", "-c", line], capture_output=True, text=True, timeout=SECONDS, env=path)
        return got.stdout if got.returncode == 0 else f"{got.stdout}{got.stderr}(status {got.returncode})"

    def test_archive_on_a_clean_root(self):
        self.begin()
        self.see("it is unpacked", "", self.does("tar -xzf /tmp/*.tar.gz -C /usr/local --strip-components=1"))
        self.follows("/usr/local")

    def test_debian_on_a_clean_root(self):
        self.begin()
        self.see("it is installed", True, "Setting up slotplan" in self.does("dpkg -i /tmp/*.deb"))
        self.see("the user", "/var/lib/slotplan:/usr/sbin/nologin\n", self.does("getent passwd slotplan | cut -d: -f6,7"))
        folders = "755 root\n700 slotplan\n700 root\n"
        self.see("the folders", folders, self.does("stat -c '%a %U' /etc/slotplan /var/lib/slotplan /var/backups/slotplan"))
        self.follows("/usr")
        left = self.does("touch /var/lib/slotplan/car.db; dpkg -r slotplan > /dev/null; ls /usr/bin/slotplan /var/lib/slotplan/car.db 2> /dev/null; :")
        self.see("behind its removal the registers are there, and no program", "/var/lib/slotplan/car.db\n", left)

    def follows(self, prefix):
        self.see("its first steps", PRINTED, self.does(TYPED.replace("PREFIX", prefix)))
        self.see("its manual page", f"{prefix}/", self.does("man -w slotplan-serve")[: len(prefix) + 1])

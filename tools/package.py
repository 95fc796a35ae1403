"""Makes of the built program what a server needs without a toolchain: python3 -m tools.package PROGRAM PLANS FOLDER. `make package` runs it.

FOLDER gets a folder that lies as /usr/local does, the same as a .tar.gz, and where there is dpkg-deb a .deb. Units, the script for backups and nginx's
example are those of docs/OPERATE.md; manual pages and completions are made of the help."""
import gzip
import os
import platform
import re
import shutil
import subprocess
import sys
import tarfile
from pathlib import Path

from tests import TOP

from . import completions, manual
from .helps import helps, printed

NAME = "slotplan"
SHARE = f"share/{NAME}"
UNITS = "lib/systemd/system"
OPERATE = (TOP / "docs/OPERATE.md").read_text()
# What is taken from the page on operating: where it says that a file lies, and where it lies here.
SHOWN = {
    "/etc/systemd/system/slotplan@.service": f"{UNITS}/slotplan@.service",
    "/etc/systemd/system/slotplan-backup@.service": f"{UNITS}/slotplan-backup@.service",
    "/etc/systemd/system/slotplan-backup@.timer": f"{UNITS}/slotplan-backup@.timer",
    "/usr/local/sbin/slotplan-backup": "sbin/slotplan-backup",
    "/etc/nginx/conf.d/slotplan.conf": f"{SHARE}/nginx/slotplan.conf",
}
# Pages, what they show, and the clients: each lies below share/slotplan where it lies here, so that links lead to it.
PAGES = "README.md", "docs/*", "examples/*.*", "clients/**/*.md", "clients/**/*.py", "page/README.md", "tests/README.md"
MACHINES = {"x86_64": "amd64", "aarch64": "arm64"}
DEBIAN = TOP / "tools/debian"


def shown(path):
    """The file that the page says to put at this path."""
    return re.search(rf"`{re.escape(path)}`[^\n]*\n(?:[^\n]+\n)*\n```\w+\n(.*?)```\n", OPERATE, re.DOTALL)[1]


def written(path, text, mode=0o644):
    path.parent.mkdir(parents=True, exist_ok=True)
    path.write_text(text)
    path.chmod(mode)


def copied(source, path, mode=0o644):
    path.parent.mkdir(parents=True, exist_ok=True)
    shutil.copyfile(source, path)
    path.chmod(mode)


def version_of(program):
    """The program's version; of one without proof it sorts before that of the proved one."""
    first, _, behind = printed(program, "--version").partition("\n")
    return first.split()[1] + ("~unproved" if "unproved" in behind else "")


def plans_helps(plans):
    """The help of slotplan-plans, and that of each of its commands."""
    env = {**os.environ, "COLUMNS": "80"}
    told = lambda *words: subprocess.run([sys.executable, plans, *words, "--help"], env=env, stdout=subprocess.PIPE, text=True, check=True).stdout
    whole = told()
    return [whole, *(told(name) for name in re.findall(r"^    (\w+)(?: |$)", whole, re.M))]


def lay_out(program, plans, version, to):
    """Lays out the folder."""
    copied(program, to / f"bin/{NAME}", 0o755)
    copied(plans, to / "bin/slotplan-plans", 0o755)
    told = helps(program)
    words = [line.partition(":")[0] for line in printed(program, "explain").splitlines()]
    for name, text in manual.pages(told, plans_helps(plans), version).items():
        written(to / f"share/man/man1/{name}", text)
    written(to / f"share/bash-completion/completions/{NAME}", completions.in_bash(told, words))
    written(to / f"share/zsh/site-functions/_{NAME}", completions.in_zsh(told, words))
    for path, here in SHOWN.items():
        written(to / here, shown(path), 0o755 if "/sbin/" in path else 0o644)
    for pattern in PAGES:
        for source in TOP.glob(pattern):
            copied(source, to / SHARE / source.relative_to(TOP))


def owned_by_root(member):
    member.uid = member.gid = 0
    member.uname = member.gname = "root"
    return member


def library_of(program):
    """The version of the C library that the program needs."""
    found = re.findall(rb"GLIBC_(\d+)\.(\d+)", Path(program).read_bytes())
    return "{}.{}".format(*max((int(major), int(minor)) for major, minor in found))


def debian(folder, version, machine, to):
    """Makes the package of Debian: the folder as /usr, with what Debian has elsewhere."""
    tree = to / "debian"
    shutil.rmtree(tree, ignore_errors=True)
    shutil.copytree(folder, tree / "usr")
    for path in (*(tree / "usr" / UNITS).iterdir(), tree / "usr/sbin/slotplan-backup"):
        path.write_text(path.read_text().replace("/usr/local/", "/usr/"))
    (tree / "usr/share/zsh/site-functions").rename(tree / "usr/share/zsh/vendor-completions")
    for path in (tree / "usr/share/man/man1").iterdir():
        path.with_name(f"{path.name}.gz").write_bytes(gzip.compress(path.read_bytes(), mtime=0))
        path.unlink()
    (tree / "usr/share/doc").mkdir()
    (tree / f"usr/share/doc/{NAME}").symlink_to(f"../{NAME}")
    size = sum(path.lstat().st_size for path in tree.rglob("*")) // 1024
    facts = {"version": version, "machine": machine, "size": size, "library": library_of(folder / f"bin/{NAME}")}
    written(tree / "DEBIAN/control", (DEBIAN / "control").read_text().format(**facts))
    for script in "postinst", "prerm", "postrm":
        copied(DEBIAN / script, tree / f"DEBIAN/{script}", 0o755)
    subprocess.run(["dpkg-deb", "--root-owner-group", "--build", tree, to / f"{NAME}_{version}_{machine}.deb"], check=True, stdout=subprocess.DEVNULL)
    shutil.rmtree(tree)


def main(program, plans, to):
    """Makes all of it, in place of what was there, and prints where it lies."""
    os.umask(0o022)
    version, machine = version_of(program), MACHINES.get(platform.machine(), platform.machine())
    shutil.rmtree(to, ignore_errors=True)
    folder = Path(to) / f"{NAME}-{version}-{machine}"
    lay_out(program, plans, version, folder)
    with tarfile.open(f"{folder}.tar.gz", "w:gz") as archive:
        archive.add(folder, folder.name, filter=owned_by_root)
    if shutil.which("dpkg-deb"):
        debian(folder, version, machine, Path(to))
    else:
        print("there is no dpkg-deb, so no .deb is made", file=sys.stderr)
    print(*sorted(Path(to).iterdir()), sep="\n")


if __name__ == "__main__":
    if len(sys.argv) != 4:
        sys.exit(__doc__)
    main(*sys.argv[1:])

"""Makes a release, installs it in an empty root, and runs what its README shows there.

usage: release.py PROGRAM

`./dist` makes the tarball of PROGRAM. The root is a folder with the C library, bash, Python, and
the system's programs that `install` and the tools call; nothing of the repository is there. Then
the tarball's own `install` runs in it, every command of the installed README has to print what
stands there, and `install --uninstall` takes all of it back. The Debian package, if one was made,
is unpacked into another such root: its tools have to run too. It needs root, for `chroot`.
"""

from __future__ import annotations

import os
import re
import shutil
import subprocess
import sys
import tarfile
import tempfile

from docs import steps_of, text_of
from repository import TOP

PROGRAMS = (
    "bash env cat chmod cp cut dirname find grep head id install ln ls mkdir mktemp mv printf"
    " realpath rm rmdir sed sleep sort tac test touch tr true uname wc"
).split()
PATH = "/usr/local/bin:/usr/bin:/bin"
PYTHON = "/usr/bin/python3"
LOCALE = "/usr/lib/locale/C.utf8"
SECONDS = 300


def copied(root: str, path: str) -> None:
    """Copies a program into a root, with the libraries that it names."""
    real = os.path.realpath(path)
    place(root, real, path)
    ran = subprocess.run(["ldd", real], capture_output=True, text=True, check=False)
    for library in re.findall(r"(/\S+) \(0x", ran.stdout):
        place(root, library, library)


def place(root: str, path: str, name: str) -> None:
    """Copies a file into a root, by a name."""
    there = root + name
    os.makedirs(os.path.dirname(there), exist_ok=True)
    if not os.path.exists(there):
        shutil.copy2(path, there)


def empty_root(root: str) -> None:
    """Makes a root with the system's programs alone."""
    for name in PROGRAMS:
        found = shutil.which(name, path="/usr/bin:/bin")
        if found is None:
            sys.exit(f"release.py: {name}: not on this system")
        copied(root, found)
    copied(root, PYTHON)
    ask = "import sysconfig; print(sysconfig.get_path('stdlib'), sysconfig.get_path('platstdlib'))"
    ran = subprocess.run([PYTHON, "-c", ask], capture_output=True, text=True, check=True)
    left_out = shutil.ignore_patterns("__pycache__", "test", "tests", "dist-packages", "*-packages")
    for library in sorted(set(ran.stdout.split())):
        shutil.copytree(library, root + library, ignore=left_out, symlinks=True)
    for name in os.listdir(f"{root}{ran.stdout.split()[1]}/lib-dynload"):
        copied(root, f"{ran.stdout.split()[1]}/lib-dynload/{name}")
    if os.path.isdir(LOCALE):
        shutil.copytree(LOCALE, root + LOCALE)
    for name in ("tmp", "root", "dev", "proc"):
        os.makedirs(f"{root}/{name}", exist_ok=True)
    os.mknod(f"{root}/dev/null", 0o20666, os.makedev(1, 3))


def inside(root: str, command: str, cwd: str = "/root") -> tuple[int, str]:
    """The status of a command in a root, and what it prints on both outputs.

    The command sees /proc, which is mounted for it alone.
    """
    there = 'mount --rbind /proc "$0/proc" && exec chroot "$0" /usr/bin/env -i "$@"'
    words = ["unshare", "--mount", "bash", "-c", there, root]
    words += [f"PATH={PATH}", "HOME=/root", "LC_ALL=C.UTF-8", "bash", "-c"]
    ran = subprocess.run(
        [*words, f"cd {cwd} && {command}"],
        stdin=subprocess.DEVNULL,
        stdout=subprocess.PIPE,
        stderr=subprocess.STDOUT,
        text=True,
        timeout=SECONDS,
        check=False,
    )
    return ran.returncode, ran.stdout


def expect(root: str, command: str, cwd: str = "/root") -> str:
    """What a command prints that has to end with 0."""
    status, printed = inside(root, command, cwd)
    if status:
        sys.exit(f"{command}: status {status}\n{printed}")
    return printed


def try_readme(root: str, documents: str) -> int:
    """Runs the commands of an installed README; answers how many there were."""
    cwd, count = "/root", 0
    for kind, text, wanted in steps_of(text_of(f"{root}{documents}/README.md")):
        if kind == "stage":
            cwd = f"/tmp/{len(os.listdir(root + '/tmp'))}"
            source = "" if text == "-" else f" && cp -r {documents}/{text}/. {cwd}"
            expect(root, f"mkdir {cwd}{source}")
            continue
        _, printed = inside(root, text, cwd)
        if printed != wanted:
            sys.exit(f"README: $ {text}\n--- prints\n{printed}--- and not\n{wanted}")
        count += 1
    return count


def try_tools(root: str, folder: str, documents: str) -> int:
    """Each tool tells its version and what it does; answers how many there are."""
    version = text_of(os.path.join(TOP, "VERSION")).strip()
    tools = sorted(name for name in os.listdir(root + folder) if name.startswith("txforest-"))
    for tool in tools:
        expect(root, f"{folder}/{tool} --help")
        told = expect(root, f"{folder}/{tool} --version")
        if told != f"{tool} {version}\n":
            sys.exit(f"{tool} --version prints {told!r}")
    expect(root, f"{folder}/txforest-explain description folder", f"{documents}/examples/config")
    return len(tools)


def try_tarball(tarball: str, root: str) -> None:
    """Installs from a tarball in an empty root, and takes all back."""
    empty_root(root)
    with tarfile.open(tarball) as it:
        it.extractall(f"{root}/root")
    (name,) = os.listdir(f"{root}/root")
    expect(root, f"./{name}/install")
    documents = "/usr/local/share/doc/txforest"
    count = try_readme(root, documents)
    tools = try_tools(root, "/usr/local/bin", documents)
    told = expect(root, f"./{name}/install --uninstall")
    left = [at for at, _, names in os.walk(f"{root}/usr/local") if names]
    if left:
        sys.exit(f"install --uninstall leaves {left}")
    print(f"{os.path.basename(tarball)}: {count} commands of README and {tools} tools run in an")
    print(f"empty root; {told.strip()}")


def try_package(package: str, root: str) -> None:
    """Unpacks a Debian package in an empty root."""
    empty_root(root)
    subprocess.run(["dpkg-deb", "-x", package, root], check=True)
    documents = "/usr/share/doc/txforest"
    count = try_readme(root, documents)
    tools = try_tools(root, "/usr/bin", documents)
    print(f"{os.path.basename(package)}: {count} commands of README and {tools} tools run")


def main() -> None:
    """Makes the release and tries all that it has."""
    if os.geteuid() != 0:
        sys.exit("release.py: this needs root, for chroot")
    program = os.path.abspath(sys.argv[1])
    with tempfile.TemporaryDirectory(prefix="release-") as room:
        words = {**os.environ, "TXFOREST": program}
        dist = [os.path.join(TOP, "dist"), f"{room}/out"]
        subprocess.run(dist, env=words, stdout=subprocess.DEVNULL, check=True)
        for name in sorted(os.listdir(f"{room}/out")):
            if name.endswith(".tar.gz"):
                try_tarball(f"{room}/out/{name}", f"{room}/tarball")
            elif name.endswith(".deb"):
                try_package(f"{room}/out/{name}", f"{room}/package")


if __name__ == "__main__":
    main()

"""What the tools know of crates.txt and of the toolchain: which crates a crate stands on, and how a static
library or a program is built over the libraries that `rt ci` left in crates/*/out."""
import functools
import hashlib
import pathlib
import re
import subprocess

ROOT = pathlib.Path(__file__).resolve().parent.parent
PARTS = ("src", "specs", "proofs")


@functools.cache
def kit():
    """The toolchain's folder."""
    page = subprocess.run(["rt", "doc"], capture_output=True, text=True, check=True).stdout.strip()
    return pathlib.Path(page).parent


def toolchain_version():
    return subprocess.run(["rt", "version"], capture_output=True, text=True, check=True).stdout.strip()


def listed(root=ROOT):
    """The crates of crates.txt, each with the libraries that it names."""
    lines = re.findall(r"^(\w+)[^:#\n]*:(.*)$", (root / "crates.txt").read_text(), re.M)
    return {name: uses.split() for name, uses in lines}


def below(crate, crates):
    """The repository's crates below a crate."""
    found = set()
    for name in crates[crate]:
        if name in crates:
            found |= {name} | below(name, crates)
    return found


def sources(crate, root=ROOT):
    """The files that a proof of the crate reads, by their paths from the top."""
    folders = [root / "crates" / crate / part for part in PARTS]
    return {str(it.relative_to(root)): it for folder in folders for it in sorted(folder.rglob("*")) if it.is_file()}


def sum_of_sources(crate, root=ROOT):
    """A sum of the sources of a crate and of those below it, and of their lines of crates.txt."""
    crates, whole = listed(root), hashlib.sha256()
    for name in sorted({crate} | below(crate, crates)):
        whole.update(f"{name}: {' '.join(crates[name])}\n".encode())
        for path, file in sources(name, root).items():
            whole.update(f"{path} {hashlib.sha256(file.read_bytes()).hexdigest()}\n".encode())
    return whole.hexdigest()


def library(crate, root):
    return root / "crates" / crate / "out/rlib" / f"{crate}.rlib"


def absent_libraries(crate, root=ROOT):
    """The crates below this one that have no built library."""
    return sorted(it for it in below(crate, listed(root)) if not (library(it, root) / "format").exists())


def crate_words(command, crate, root=ROOT):
    """The words of a `rattle` command on a crate, over the libraries that stand in crates/*/out of `root`. It
    runs in the crate's folder."""
    crates, is_program = listed(root), (root / "crates" / crate / "src/main.rt").exists()
    words = [kit() / "bin/rattle", command, "--crate-name", crate, f"src/{'main' if is_program else 'lib'}.rt"]
    for name in ["std", *crates[crate]]:
        path = library(name, root) if name in crates else kit() / f"rlibs/{name}.rlib"
        words += ["--extern", f"{name}={path}"]
    for folder in [kit() / "rlibs", *sorted(library(it, root).parent for it in below(crate, crates))]:
        words += ["-L", f"dependency={folder}"]
    words += ["--antt-project", kit() / "rattle/logic/antt-project.json", "--logic-built", kit() / "logic_built"]
    return [str(it) for it in words]


def build_command(crate, out, root=ROOT, flags=()):
    """The command that proves a crate and builds its archive, or its program's object file, to `out`. It runs
    in the crate's folder."""
    is_program = (root / "crates" / crate / "src/main.rt").exists()
    words = crate_words("build", crate, root)
    words += ["--links", f"{crate}="] if is_program else ["--crate-type", "staticlib"]
    words += [] if "--jobs" in flags else ["--jobs", "4"]
    words += ["--toolchain", kit() / "toolchain", "--backend", "llvm", "-o", out, *flags]
    return [str(it) for it in words]


def link_command(objects, out):
    """The command that links a program as `rt ci` does."""
    words = [kit() / "bin/rattle-link", "--target", "x86_64-unknown-linux-gnu", "--toolchain", kit() / "toolchain"]
    words += ["-o", out, objects, kit() / "c/libos_c.a", kit() / "c/liblibc_c.a"]
    return [str(it) for it in words]

"""The files of release/: what is in them, what they may ask for, and how the libraries are made of the proved archive."""
import configparser
import gzip
import hashlib
import importlib.util
import pathlib
import re
import shutil
import subprocess
import tempfile

import built

ROOT = built.ROOT
FOLDER = ROOT / "release"
LIBRARY = "textarea_c"
PROGRAMS = ("taedit", "tascript", "gallery")
# The newest glibc that each may ask for, and the bytes of all files.
GLIBC = {"libtextarea.so": (2, 17), **{name: (2, 34) for name in PROGRAMS}}
MOST_BYTES = 6_000_000
PLATFORM = "manylinux_2_17_x86_64"
# The package of C, of which `make install` writes one for its folder.
PC = """\
prefix=${{pcfiledir}}
includedir=${{prefix}}
libdir=${{prefix}}

Name: textarea
Description: A multi-line text editor widget for terminals, over a proved core
Version: {version}
Cflags: -I${{includedir}}
Libs: ${{libdir}}/libtextarea.a
"""


class Fault(Exception):
    """Why there is no release, or what is wrong with it."""


def run(words, **how):
    """Runs a command, and returns its output. The end of that is in the fault if it fails."""
    ran = subprocess.run([str(it) for it in words], stdout=subprocess.PIPE, stderr=subprocess.STDOUT, text=True, errors="replace", **how)
    if ran.returncode:
        raise Fault(f"{pathlib.Path(words[0]).name} {words[1]} ended with status {ran.returncode}:\n{ran.stdout[-3000:]}")
    return ran.stdout


def wheel_maker(root):
    """bindings/python/make_wheel.py of a checkout, as a module."""
    spec = importlib.util.spec_from_file_location("make_wheel", root / "bindings/python/make_wheel.py")
    found = importlib.util.module_from_spec(spec)
    spec.loader.exec_module(found)
    return found


def packed(program):
    """The name of the file that has a program, which tools/released-program unpacks."""
    return f"{program}.gz"


def pack(file, out):
    """Writes a program as packed, of the same bytes each time."""
    with open(out, "wb") as archive, gzip.GzipFile(filename="", mode="wb", compresslevel=9, fileobj=archive, mtime=0) as packing:
        packing.write(file.read_bytes())


def unpacked(program, folder=FOLDER):
    return gzip.decompress((folder / packed(program)).read_bytes())


def join_archive(core, out):
    """Writes the archive of the core with the toolchain's C part in it."""
    out.unlink(missing_ok=True)
    run([built.kit() / "toolchain/bin/llvm-ar", "qLcsD", out, core, built.kit() / "c/liblibc_c.a"])


def soname(version):
    """An interface is that of one version before 1.0 but for the last number."""
    return f"libtextarea.so.{version.rpartition('.')[0]}"


def link_shared(archive, version, out):
    """Writes the shared library, of which only the calls are visible."""
    script = out.with_suffix(".map")
    script.write_text("{ global: ta_*; local: *; };\n")
    words = [built.kit() / "toolchain/bin/ld.lld", "-shared", "-s", "--gc-sections", "-z", "now", "-z", "noexecstack"]
    words += ["--build-id=none", "-soname", soname(version), f"--version-script={script}", "-o", out]
    # libgcc.a has the division of 128 bits.
    libraries = [built.kit() / "toolchain/lib" / name for name in ("libgcc.a", "libc.so.6")]
    run([*words, "--whole-archive", archive, "--no-whole-archive", *libraries])
    script.unlink()


def asked_glibc(name, folder):
    """The newest glibc that a program or the shared library of a release asks for."""
    if name not in PROGRAMS:
        return glibc_of(folder / name)
    with tempfile.NamedTemporaryFile() as file:
        file.write(unpacked(name, folder))
        file.flush()
        return glibc_of(file.name)


def glibc_of(file):
    """The newest glibc that a program or a shared library asks for; (0, 0) for a static one."""
    found = re.findall(r"Name: GLIBC_(\d+)\.(\d+)", run(["readelf", "-WV", file]))
    return max(((int(major), int(minor)) for major, minor in found), default=(0, 0))


def visible_names(file):
    """What a shared library defines for others."""
    lines = run(["readelf", "-W", "--dyn-syms", file]).splitlines()
    rows = [line.split() for line in lines if re.match(r"\s*\d+:", line)]
    return {row[7].partition("@")[0] for row in rows if len(row) > 7 and row[6] != "UND" and row[4] != "LOCAL"}


def sum_of(file):
    return hashlib.sha256(file.read_bytes()).hexdigest()


def files_in(folder):
    return sorted(it.name for it in folder.iterdir())


def read_proved(folder=FOLDER):
    """PROVED: its section `release`, one for each file, and the verdicts."""
    found = configparser.ConfigParser(interpolation=None)
    found.read_string((folder / "PROVED").read_text())
    return found


def check_limits(folder):
    """Checks what the files ask for, what they show, and their size."""
    if not shutil.which("readelf"):
        raise Fault("there is no readelf, which tells what programs ask for")
    absent = {name for name in PROGRAMS if not (folder / packed(name)).exists()}
    for name, most in GLIBC.items():
        if name in absent:
            continue
        asked = asked_glibc(name, folder)
        if asked > most:
            raise Fault(f"{name} asks for glibc {asked[0]}.{asked[1]}, and may ask for {most[0]}.{most[1]}")
    others = sorted(it for it in visible_names(folder / "libtextarea.so") if not it.startswith("ta_"))
    if others:
        raise Fault(f"libtextarea.so shows {', '.join(others[:4])}")
    size = sum((folder / name).stat().st_size for name in files_in(folder))
    if size > MOST_BYTES:
        raise Fault(f"the release has {size} bytes, and may have {MOST_BYTES}")

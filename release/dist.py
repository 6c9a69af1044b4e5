#!/usr/bin/env python3
"""Packs a release, sas-VERSION-PLATFORM.tar.gz, for those who have no prover: a program that is linked statically, the library, the
manual page, completions, documents and examples. Prints its place and its SHA-256.

    python3 release/dist.py [FOLDER [PLATFORM]]

FOLDER is where it is put, the top of the repository where none is named. PLATFORM is x86_64-linux, if left out, or aarch64-linux. The
files stand in a release where they stand in the repository, and the library in library/out/. The program is linked from the object of the
crate `sas`; where there is none yet for the platform, or a file of a crate is younger, build.py proves the crate and what it stands on.
library/build.py does so of the library. What is built is packed without the toolchain, of which the build keeps what is wanted: a note of
it, and two archives of C code, in place of which another platform has process.c and library/sas_memory.c. The C compiler is $CC or cc, or
aarch64-linux-gnu-gcc.

The same files at the same commit, with the same compilers, give the same bytes: each file has the time of the commit, or that of
SOURCE_DATE_EPOCH, and names are sorted. PROVED says with which toolchain and at which commit all was proved, and how `make test` ended
if it ended at this commit. sas.cdx.json is the bill of materials (bill.py).
"""
import glob
import gzip
import hashlib
import io
import json
import os
import re
import subprocess
import sys
import tarfile
import tempfile

TOP = os.path.dirname(os.path.dirname(os.path.abspath(__file__)))
sys.path.insert(0, TOP)
import bill
import build as proving  # the file at the top

PROGRAM = "sas"
# what the prover notes in a program: the logic in which it is proved
PROVED = b"rattle logic="
# what `make test` notes at its end: the commit, the toolchain, the last line
GATE = f"{TOP}/gate.log"
# the C code of a program for another platform than the native one
IN_C = ("release/process.c", "library/sas_memory.c")
# documents that describe the source; a release has the others
OF_SOURCE = ("ARCHITECTURE", "CONTRIBUTING", "DECISIONS", "PROMISES", "RATTLE", "READING", "SPEED")
# what stands between these lines of a document is about the source, and left out of a release
ONLY_SOURCE = re.compile(rb"<!-- of the source -->\n.*?<!-- end of the source -->\n", re.DOTALL)
PACKED = (
    "install.sh",
    "README.md",
    "CHANGELOG.md",
    "SECURITY.md",
    "CITATION.cff",
    "man/*.1",
    "completions/*",
    "docs/*.md",
    "docs/report.png",
    "examples/*",
    "library/examples/*",
    "library/python/*.*",
    "library/python/sas/*",
    "report/*",
    "report/page/*",
    "library/rust/*.toml",
    "library/rust/build.rs",
    "library/rust/src/*",
    "library/rust/tests/*",
)
BUILT = "library/out/"
PROGRAMS = ("sas", "install.sh", "report/sas-report", "library/out/libsas.so.1")


def printed(*command, cwd=TOP):
    """Returns what a command prints, without the line's end, or None where it isn't there or fails."""
    try:
        ran = subprocess.run(command, cwd=cwd, capture_output=True, check=False, encoding="utf-8")
    except OSError:
        return None
    return ran.stdout.strip() if ran.returncode == 0 else None


def run(*command, **more):
    """Runs a command, and ends with status 1 where its own isn't 0."""
    ended = subprocess.run(command, check=False, **more)
    if ended.returncode:
        sys.exit(f"not packed: {' '.join(command)} ended with status {ended.returncode}")


def linked(platform, folder, *words):
    """Returns the program, linked with these words of the C compiler; statically, if none is given."""
    if not proving.is_built(PROGRAM, platform):
        run(sys.executable, f"{TOP}/build.py", PROGRAM, str(os.cpu_count()), platform, stdout=subprocess.DEVNULL)
    others = proving.archives(PROGRAM) if platform == proving.NATIVE else ["-O2", *(f"{TOP}/{it}" for it in IN_C)]
    words = [*(words or ["-static"]), "-s", "-Wl,--build-id=none", proving.path_of(PROGRAM, platform), *others]
    run(*proving.compiler_for(platform), *words, "-o", f"{folder}/sas")
    made = bytes_of(f"{folder}/sas")
    return made if PROVED in made else sys.exit(f"not packed: {proving.path_of(PROGRAM, platform)} isn't proved")


def built_with(platform):
    """Returns what the program was built with: the toolchain, and the libraries of it."""
    return json.loads(bytes_of(proving.note_of(PROGRAM, platform)))


def bytes_of(path):
    with open(path, "rb") as file:
        return file.read()


def version_of():
    """Returns the version that the code says."""
    code = bytes_of(f"{TOP}/crates/sas_words/src/grammar.rt").decode()
    return re.search(r'^const VERSION: &str = "(.*)";$', code, re.MULTILINE)[1]


def commit_of():
    """Returns which commit the files are of, and the time that all of them get."""
    commit, time = printed("git", "rev-parse", "HEAD"), printed("git", "log", "-1", "--format=%ct")
    if commit and printed("git", "status", "--porcelain") != "":
        commit += ", with changes that are in no commit"
    return commit or "unknown", int(os.environ.get("SOURCE_DATE_EPOCH") or time or 0)


def gate_of(commit):
    """Returns how `make test` ended at the commit, if it did."""
    if os.path.exists(GATE):
        at, toolchain, last = bytes_of(GATE).decode().splitlines()
        if at == commit:
            return f"make test, with {toolchain}, ended with: {last}"
    return "make test was not run here at this commit"


def proved(version, commit, platform):
    """Returns what PROVED says of what was built."""
    compiler = printed(*proving.compiler_for(platform), "--version").splitlines()[0]
    return f"""\
sas {version} for {platform}

commit     {commit}
toolchain  {built_with(platform)["toolchain"]}
target     {proving.PLATFORMS[platform].target}
gate       {gate_of(commit)}
linker     {compiler}

The toolchain builds the program and the library only where each function of theirs is proved to meet its contract. At this commit the
contracts, definitions and proofs stand in the folder crates of the repository. Its document PROMISES has each promise, and READING says
what must be believed. The program of a release is linked statically, that of a package of Debian isn't. libsas.a and libsas.so require the
C library of the machine.
"""


def names(platform):
    """Returns the names of what is packed, each with its path: no file that the repository doesn't know, but for what was built."""
    known = printed("git", "ls-files", "-z")
    found = [it for pattern in PACKED for it in glob.glob(pattern, root_dir=TOP) if os.path.isfile(f"{TOP}/{it}")]
    found = [it for it in found if it not in [f"docs/{name}.md" for name in OF_SOURCE]]
    found = {it: f"{TOP}/{it}" for it in found if known is None or it in known.split("\0")}
    library = TOP + ("/library/out" if platform == proving.NATIVE else f"/library/out-{platform}")
    built = [it for it in glob.glob("**", root_dir=library, recursive=True) if os.path.isfile(f"{library}/{it}")]
    return found | {f"{BUILT}{it}": f"{library}/{it}" for it in built}


def released(name, path):
    """Returns what a release holds of a file under a name."""
    held = bytes_of(path)
    return ONLY_SOURCE.sub(b"", held) if name.endswith(".md") else held


def packed(top, time, files, links):
    """Returns these files in a folder, as an archive. Some of them are links, each with what it leads to."""
    sums = "".join(f"{hashlib.sha256(held).hexdigest()}  {name}\n" for name, held in sorted(files.items()))
    files = files | {"SHA256SUMS": sums.encode()}
    out = io.BytesIO()
    with gzip.GzipFile(fileobj=out, mode="wb", filename="", mtime=0, compresslevel=9) as zipped:
        with tarfile.open(fileobj=zipped, mode="w", format=tarfile.USTAR_FORMAT) as tar:
            for name, held in sorted(files.items()):
                entry = tarfile.TarInfo(f"{top}/{name}")
                entry.size, entry.mtime, entry.mode = len(held), time, 0o755 if name in PROGRAMS else 0o644
                if name in links:
                    entry.size, entry.type, entry.linkname = 0, tarfile.SYMTYPE, links[name]
                tar.addfile(entry, io.BytesIO(held))
    return out.getvalue()


def release(platform):
    """Returns the folder of a release for a platform, and its archive."""
    run(sys.executable, f"{TOP}/library/build.py", str(os.cpu_count()), platform, stdout=subprocess.DEVNULL)
    version, (commit, time) = version_of(), commit_of()
    paths = names(platform)
    files = {name: released(name, path) for name, path in paths.items()}
    links = {name: os.readlink(path) for name, path in paths.items() if os.path.islink(path)}
    with tempfile.TemporaryDirectory() as folder:
        files["sas"] = linked(platform, folder)
    files["PROVED"] = proved(version, commit, platform).encode()
    files[bill.NAME] = bill.written(version, built_with(platform), time, bill.c_library(proving.compiler_for(platform)))
    top = f"sas-{version}-{platform}"
    return top, packed(top, time, files, links)


def main(to=TOP, platform=proving.NATIVE):
    top, held = release(proving.known(platform))
    path = os.path.join(to, f"{top}.tar.gz")
    with open(path, "wb") as file:
        file.write(held)
    print(f"{hashlib.sha256(held).hexdigest()}  {path}")


if __name__ == "__main__":
    main(*sys.argv[1:])

#!/usr/bin/env python3
"""Proves what a crate needs, and builds it. Prints a line for each crate, and writes all that the prover prints to build.log.

    python3 build.py CRATE [PROCESSORS [PLATFORM]]
    python3 build.py CRATE --check [FLAG ..]
    python3 build.py CRATE --edit EDIT [FLAG ..]
    python3 build.py CRATE --unproved

CRATE is a program, as sas, or a static library, as sas_c. PROCESSORS is how many to use; all, if left out. A check takes one to four GB.
PLATFORM is x86_64-linux, if left out, or aarch64-linux. For another platform only CRATE is proved again, and nothing is linked: the object
file of a program, or the archive of a library, stands in out/PLATFORM/. Beside it is kept what packing asks of the toolchain: a note of
what the crate was built with, and for a program on the native platform the toolchain's C code.

Each crate is proved once those that it uses are proved: first the crate with the longest chain of others above it. It gets half of the
processors that are idle, the next one half of the rest, and the last one what is left. What is written of a library, into out/libraries/,
are its interface, its code and the statements of its proofs, as `rt ci` does it: with whole proofs, as `rt lib` writes them, the crates at
the top load for minutes. A crate whose files and crates below are those of the last run isn't proved again.

--check proves any crate over what the last run left of those below, and keeps its work in the crate's out/incremental, so that the next
check is short. Flags are those of `rattle check`, such as `--only FUNCTION`, `--allow-holes` or `--jobs 1`.

--edit tries an edit that must fail, as `must-fail/X.edit`, on a copy, in the same way. It says what refuses it (edits.py). --unproved
builds a program as CRATE-unproved, at the top of the repository, from the code alone (unproved.py).
"""
import concurrent.futures
import functools
import glob
import hashlib
import json
import os
import re
import shlex
import shutil
import subprocess
import sys
import time
from collections import namedtuple

TOP = os.path.dirname(os.path.abspath(__file__))
CRATES = f"{TOP}/crates"
LIBRARIES = f"{TOP}/out/libraries"
# the most processors that a check can use
MOST = 4
# what a platform is called by the toolchain, and the C compiler and the `ar` that build for it
Platform = namedtuple("Platform", "target compiler archiver")
PLATFORMS = {
    "x86_64-linux": Platform("x86_64-unknown-linux-gnu", "cc", "ar"),
    "aarch64-linux": Platform("aarch64-unknown-linux-gnu", "aarch64-linux-gnu-gcc", "aarch64-linux-gnu-ar"),
}
NATIVE = "x86_64-linux"
# what the toolchain has in C for a program on the native platform
KIT_ARCHIVES = ("libos_c.a", "liblibc_c.a")
# a Rust crate and its version, as the page of a library that is made after it names them
RUST_CRATE = re.compile(r"`?([\w-]+)`? (\d+\.\d+\.\d+)")
BEGAN = time.monotonic()


@functools.cache
def kit():
    """Returns the folder of the toolchain. Ends where its command isn't there."""
    command = shutil.which("rt") or sys.exit("there is no `rt`, of the toolchain, on the PATH")
    return os.path.dirname(os.path.dirname(os.path.realpath(command)))


def known(platform):
    """Returns a platform if it is one, and else ends."""
    return platform if platform in PLATFORMS else sys.exit(f"there is no platform {platform}; there are {' and '.join(PLATFORMS)}")


def compiler_for(platform):
    """Returns the words of the C compiler for a platform: $CC, or the usual one. Ends where that isn't there, or is for another one."""
    words = shlex.split(os.environ.get("CC") or PLATFORMS[platform].compiler)
    try:
        ended = subprocess.run([*words, "-dumpmachine"], check=False, capture_output=True, encoding="utf-8", errors="replace")
    except OSError as fault:
        sys.exit(f"not built: {words[0]}: {fault.strerror}")
    if ended.returncode:
        sys.exit(f"not built: {words[0]} ended with status {ended.returncode}")
    if not ended.stdout.startswith(platform.partition("-")[0]):
        sys.exit(f"not built: {words[0]} is a compiler for {ended.stdout.strip() or 'an unknown machine'}, not for {platform}")
    return words


def uses():
    """Returns what each crate of crates.txt uses: crates of the repository and libraries of the toolchain."""
    with open(f"{TOP}/crates.txt", encoding="utf-8") as file:
        lines = [line.split(":") for line in file if line.strip() and not line.startswith("#")]
    return {front.split()[0]: behind.split() for front, behind in lines}


USED = uses()


def below(crate):
    """Returns the crates of the repository that a crate uses."""
    return [it for it in USED[crate] if it in USED]


def with_all_below(crate):
    """Returns a crate and all crates of the repository that it stands on."""
    names = [crate]
    for it in names:
        names += [other for other in below(it) if other not in names]
    return names


def files_of(crate):
    """Returns the files that a crate is made of, in order."""
    parts = (f"{CRATES}/{crate}/{it}" for it in ("src", "specs", "proofs"))
    return sorted(f"{at}/{name}" for part in parts for at, _, names in os.walk(part) for name in names)


@functools.cache
def sum_of(crate):
    """Returns a sum of all that a crate is made of, the toolchain and the crates below among them. It is the same in a copied clone."""
    with open(f"{kit()}/KIT-ID", "rb") as file:
        made = hashlib.sha256(repr([file.read(), USED[crate], *map(sum_of, below(crate))]).encode())
    for path in files_of(crate):
        with open(path, "rb") as file:
            made.update(os.path.relpath(path, TOP).encode() + hashlib.sha256(file.read()).digest())
    return made.hexdigest()


def is_program(crate):
    return os.path.isfile(f"{CRATES}/{crate}/src/main.rt")


def path_of(crate, platform):
    """Returns where the object file of a program, or the archive of a static library, stands for a platform."""
    folder = f"{CRATES}/{crate}/out" if platform == NATIVE else f"{TOP}/out/{platform}"
    return f"{folder}/{crate}.o" if is_program(crate) else f"{folder}/lib{crate}.a"


def note_of(crate, platform):
    """Returns where it is noted of what a program or a static library was built for a platform."""
    return f"{path_of(crate, platform)}.json"


def archives(crate):
    """Returns where the toolchain's C code for a program on the native platform is kept."""
    return [f"{CRATES}/{crate}/out/{it}" for it in KIT_ARCHIVES]


def is_built(crate, platform):
    """Returns whether a program or a static library was built for a platform, with all that is kept beside it, and no file that it is made
    of is younger."""
    made = path_of(crate, platform)
    kept = [made, note_of(crate, platform), *(archives(crate) if is_program(crate) and platform == NATIVE else [])]
    sources = [f"{TOP}/crates.txt", *(path for it in with_all_below(crate) for path in files_of(it))]
    return all(map(os.path.isfile, kept)) and os.path.getmtime(made) >= max(map(os.path.getmtime, sources))


def is_proved(crate):
    """Returns whether a library was built of its files as they are."""
    path = f"{LIBRARIES}/{crate}.sum"
    if not os.path.isfile(path):
        return False
    with open(path, encoding="utf-8") as file:
        return file.read() == sum_of(crate)


def run(crate, verb, folders, *more, copy=None):
    """Has the prover check or build a crate, or a copy of it, over the libraries in these folders. Returns how that ended."""
    root = "main" if is_program(crate) else "lib"
    words = [f"{kit()}/bin/rattle", verb, "--crate-name", crate, f"src/{root}.rt", "--links", f"{crate}="]
    words += ["--antt-project", f"{kit()}/rattle/logic/antt-project.json", "--logic-built", f"{kit()}/logic_built"]
    folders = [*folders, f"{kit()}/rlibs"]
    for it in dict.fromkeys(["std", *USED[crate]]):
        words += ["--extern", f"{it}=" + next(f"{at}/{it}.rlib" for at in folders if os.path.isdir(f"{at}/{it}.rlib"))]
    return ran([*words, *(word for at in folders for word in ("-L", f"dependency={at}")), *more], crate, copy)


def ran(command, crate, copy=None):
    """Runs a command in a crate's folder, or in a copy of it, and returns how it ended, with what it printed."""
    os.makedirs(f"{CRATES}/{crate}/out", exist_ok=True)
    streams = {"stdout": subprocess.PIPE, "stderr": subprocess.STDOUT, "encoding": "utf-8", "errors": "replace"}
    return subprocess.run(command, check=False, cwd=copy or f"{CRATES}/{crate}", stdin=subprocess.DEVNULL, **streams)


def prove(crate, jobs):
    """Proves a library for the crates above it."""
    return run(crate, "build", [LIBRARIES], "--jobs", str(jobs), "--statements", "-o", f"{LIBRARIES}/{crate}.rlib")


def build(crate, folders, jobs, platform=NATIVE):
    """Proves a program or a static library over the libraries in these folders, and builds it. Returns how that ended."""
    made = path_of(crate, platform)
    os.makedirs(os.path.dirname(made), exist_ok=True)
    toolchain = ["--target", PLATFORMS[platform].target, "--toolchain", f"{kit()}/toolchain"]
    kind = [] if is_program(crate) else ["--crate-type", "staticlib"]
    ended = run(crate, "build", folders, "--jobs", str(jobs), *toolchain, "--backend", "llvm", "-o", made, *kind)
    if ended.returncode:
        return ended
    keep(crate, platform)
    if not is_program(crate) or platform != NATIVE:
        return ended
    linked = ran([f"{kit()}/bin/rattle-link", *toolchain, "-o", f"out/{crate}", made, *archives(crate)], crate)
    linked.stdout = ended.stdout + linked.stdout
    return linked


def keep(crate, platform):
    """Keeps beside what was built what packing asks of the toolchain, so that it can be packed where that isn't there."""
    with open(f"{kit()}/KIT-ID", encoding="utf-8") as file:
        about = {"toolchain": file.readline().strip(), "libraries": libraries_below(crate)}
    with open(note_of(crate, platform), "w", encoding="utf-8") as file:
        json.dump(about, file, indent=1)
    if is_program(crate) and platform == NATIVE:
        for it in KIT_ARCHIVES:
            shutil.copy(f"{kit()}/c/{it}", f"{CRATES}/{crate}/out/{it}")


def libraries_below(crate):
    """Returns the libraries of the toolchain that a crate stands on: for each the Rust crates that it is made after, and what it uses."""
    names, found = ["std", *(it for own in with_all_below(crate) for it in USED[own] if it not in USED)], {}
    for name in names:
        if name not in found:
            with open(f"{kit()}/rlibs/{name}.rlib/format", encoding="utf-8") as file:
                found[name] = {"after": rust_crates(name), "uses": re.findall(r"^dep (\w+)$", file.read(), re.MULTILINE)}
            names += found[name]["uses"]
    return dict(sorted(found.items()))


def rust_crates(library):
    """Returns the Rust crates that a library of the toolchain is made after, each with its version. A library of its own has no page."""
    page = f"{kit()}/rattle/{library}/README.md"
    if not os.path.isfile(page):
        return {}
    with open(page, encoding="utf-8") as file:
        return dict(RUST_CRATE.findall(file.read()))


def proved_below(crate):
    """Returns the folders of the libraries below a crate, where they are proved as they stand: what this script left, or else `rt ci`."""
    is_here = all(map(is_proved, with_all_below(crate)[1:]))
    return [LIBRARIES] if is_here else glob.glob(f"{CRATES}/*/out/rlib")


class Build:
    """The crates to prove, those that are proved, and the log."""

    def __init__(self, last, log):
        self.last, self.log, self.names = last, log, with_all_below(last)
        self.proved = {it for it in self.names if it != last and is_proved(it)}

    @functools.cache
    def longest_above(self, crate):
        """Returns how many bytes the longest chain from a crate upwards has."""
        above = (self.longest_above(it) for it in self.names if crate in USED[it])
        return sum(map(os.path.getsize, files_of(crate))) + max(above, default=0)

    def report(self, crate, ended):
        """Logs what the prover printed of a crate, prints whether it is proved, and returns that."""
        self.log.write(f"== {crate}\n{ended.stdout}")
        well = ended.returncode == 0
        self.proved |= {crate} if well else set()
        if well and crate != self.last:
            with open(f"{LIBRARIES}/{crate}.sum", "w", encoding="utf-8") as file:
                file.write(sum_of(crate))
        after = f"{time.monotonic() - BEGAN:.0f} s after the start"
        print(f"{crate} ({len(self.proved)} of {len(self.names)}): {'proved' if well else 'not proved'}, {after}", flush=True)
        return well

    def prove_below(self, processors):
        """Proves the crates below the last one. Returns whether all are proved."""
        waiting = sorted((it for it in self.names[1:] if it not in self.proved), key=self.longest_above, reverse=True)
        running, well = {}, True
        with concurrent.futures.ThreadPoolExecutor(processors) as pool:
            while running or (waiting and well):
                ready = [it for it in waiting if well and self.proved.issuperset(below(it))]
                idle = processors - sum(jobs for _, jobs in running.values())
                for crate in ready:
                    jobs = min(MOST, idle if crate == ready[-1] else (idle + 1) // 2)
                    if jobs:
                        idle -= jobs
                        waiting.remove(crate)
                        running[pool.submit(prove, crate, jobs)] = crate, jobs
                for it in concurrent.futures.wait(running, return_when=concurrent.futures.FIRST_COMPLETED).done:
                    well &= self.report(running.pop(it)[0], it.result())
        return well


def main():
    if sys.argv[2:3] == ["--check"]:
        ended = run(sys.argv[1], "check", [LIBRARIES], "--incremental", "out/incremental", *sys.argv[3:])
        print(ended.stdout, end="")
        sys.exit(ended.returncode)
    if sys.argv[2:3] == ["--edit"]:
        # this and the next one take this file as a module
        import edits

        sys.exit(edits.try_edit(sys.argv[1], *sys.argv[3:]))
    if sys.argv[2:3] == ["--unproved"]:
        import unproved

        sys.exit(unproved.build(sys.argv[1]))
    kit()
    crate, processors = sys.argv[1], int(sys.argv[2]) if sys.argv[2:] else os.cpu_count()
    platform = known(sys.argv[3]) if sys.argv[3:] else NATIVE
    os.makedirs(LIBRARIES, exist_ok=True)
    with open(f"{TOP}/build.log", "w", encoding="utf-8") as log:
        made = Build(crate, log)
        well = made.prove_below(processors) and made.report(crate, build(crate, [LIBRARIES], min(MOST, processors), platform))
    if not well:
        sys.exit("not built; build.log says why")


if __name__ == "__main__":
    main()

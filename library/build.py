#!/usr/bin/env python3
"""Builds the library, into library/out/: libsas.a and libsas.so, and beside them what a program includes, imports or looks for, sas.h,
sas.hpp and what it includes, the package of Python, sas.pc and the package files of CMake. For another PLATFORM, such as aarch64-linux,
the folder is library/out-PLATFORM/.

    python3 library/build.py [PROCESSORS [PLATFORM]]
    python3 library/build.py --over-gate [PLATFORM]

It is made of the archive of the proved crate sas_c. If there is none yet, or a file of a crate is younger, build.py proves the crate and
what it uses, and builds it; PROCESSORS is how many it uses, and build.log has what the prover prints. With --over-gate the archive is
built over the libraries that `rt ci` has just proved and left in each out/rlib/, so that nothing is proved twice. Two files in C are
added: sas_memory.c, which allocates, and sas_version.c. The C compiler is $CC or cc, and `ar` is $AR or ar; for aarch64-linux they are $CC
or aarch64-linux-gnu-gcc, and $AR or aarch64-linux-gnu-ar. A library that was there is replaced only after the new one was built.
"""
import glob
import os
import shlex
import shutil
import subprocess
import sys

HERE = os.path.dirname(os.path.abspath(__file__))
TOP = os.path.dirname(HERE)
sys.path.insert(0, TOP)
import build as proving  # the file at the top, not this one

NAME = "sas_c"
# the shared library, of which libsas.so is a link; its number changes with its calls
SHARED = "libsas.so.1"
# what is added to the heart
ADDED = ("sas_memory", "sas_version")
BESIDE = ("sas.h", "sas_memory.h", "sas.hpp", "sas_answers.hpp", "sas_values.hpp", "sas.pc", "sasConfig.cmake", "sasConfigVersion.cmake")


def run(*command):
    """Runs a tool, and ends with its status and the first line that it prints where that isn't 0."""
    try:
        ended = subprocess.run(command, check=False, stdout=subprocess.PIPE, stderr=subprocess.STDOUT, encoding="utf-8", errors="replace")
    except OSError as fault:
        sys.exit(f"not built: {command[0]}: {fault.strerror}")
    if ended.returncode:
        first = ended.stdout.strip().partition("\n")[0]
        sys.exit(f"not built: {command[0]} ended with status {ended.returncode}" + (f": {first}" if first else ""))


def folder_of(platform):
    """Returns where the library for a platform stands."""
    return f"{HERE}/out" if platform == proving.NATIVE else f"{HERE}/out-{platform}"


def build_over_gate(platform):
    """Builds the archive over the libraries that `rt ci` left. It proves the crate alone."""
    ended = proving.build(NAME, glob.glob(f"{proving.CRATES}/*/out/rlib"), os.cpu_count(), platform)
    with open(f"{TOP}/build.log", "w", encoding="utf-8") as log:
        log.write(ended.stdout)
    if ended.returncode:
        sys.exit("not built; build.log says why")


def prove(processors, platform):
    """Proves the crate and what it stands on, and builds the archive."""
    ended = subprocess.run([sys.executable, f"{TOP}/build.py", NAME, processors, platform], check=False)
    if ended.returncode:
        sys.exit(ended.returncode)


def link(compiler, platform, new):
    """Makes the two libraries of the archive, in a folder."""
    made = [f"{new}/{name}.o" for name in ADDED]
    for name, path in zip(ADDED, made):
        run(*compiler, "-std=c99", "-O2", "-fPIC", "-Wall", "-Wextra", "-c", f"{HERE}/{name}.c", "-o", path)
    shutil.copy(proving.path_of(NAME, platform), f"{new}/libsas.a")
    archiver = shlex.split(os.environ.get("AR") or proving.PLATFORMS[platform].archiver)
    run(*archiver, "rsD", f"{new}/libsas.a", *made)
    for path in made:
        os.remove(path)
    whole = ["-Wl,--whole-archive", f"{new}/libsas.a", "-Wl,--no-whole-archive"]
    shown = [f"-Wl,--version-script={HERE}/sas.map", f"-Wl,-soname,{SHARED}", "-Wl,-z,defs"]
    # on a processor that lacks instructions of the code the loader says so
    shown += ["-Wl,-z,x86-64-v2"] if platform == proving.NATIVE else []
    run(*compiler, "-shared", *shown, *whole, "-o", f"{new}/{SHARED}")
    os.symlink(SHARED, f"{new}/libsas.so")


def main(processors=str(os.cpu_count()), platform=proving.NATIVE):
    # a compiler that isn't there is found before anything is proved
    compiler = proving.compiler_for(proving.known(platform))
    if processors == "--over-gate":
        build_over_gate(platform)
    elif not proving.is_built(NAME, platform):
        prove(processors, platform)
    out = folder_of(platform)
    new = f"{out}.new"
    shutil.rmtree(new, ignore_errors=True)
    os.mkdir(new)
    link(compiler, platform, new)
    for name in BESIDE:
        shutil.copy(f"{HERE}/{name}", new)
    for source, to in ((f"{HERE}/python/sas", "sas"), (f"{TOP}/report", "sas/report")):
        shutil.copytree(source, f"{new}/{to}", ignore=shutil.ignore_patterns("__pycache__", "sas-report"))
    shutil.rmtree(out, ignore_errors=True)
    os.rename(new, out)
    shown = os.path.relpath(out, TOP)
    print(f"built {shown}/libsas.a and {shown}/libsas.so")


main(*sys.argv[1:])

#!/usr/bin/env python3
"""Builds programs over the library as its users do, by CMake, pkg-config, cargo and pip, without a network.

    python3 cases/packages.py [TOP]

TOP is the repository or an unpacked release, whose library/out/ is there; the repository where none
is named. For each tool that isn't there it prints a line that begins with `without`.

No proof knows these packages. One that names a file that isn't there, or lacks one, would be found here alone.
"""
import contextlib
import glob
import io
import os
import platform
import re
import shlex
import shutil
import sys
import zipfile

import harness
from harness import c_compiler, differs, is_there, printed
from oracles.tasks import with_ends
from texts import CASES, TOP, bytes_of, put, text_of

# lines of a project of CMake that must not find the library as another version
OTHER_VERSION = """\
find_package(sas 2 QUIET)
if(sas_FOUND)
  message(FATAL_ERROR "found as version 2")
endif()"""
PLANNER_PRINTS = """\
plan invalid: step 2: not applicable
plan invalid: goal fact 0 not reached
plan invalid: goal fact 0 not reached
plan valid: 4 steps, cost 4
6 1 put f2 feed
0 1 0 Atom lit(yard)
1 1 0 Atom lit(hall)
3 0 1 NegatedAtom free(feed)
5 0 1 Atom in(f2, feed)
6 1 0 Atom handempty()
7 0 1 NegatedAtom outage()
plan invalid: step 5: no operator of that number
"""
SHARED = "libsas.so.1"
# pip without a network, and without what is installed elsewhere
PIP = ("-m", "pip", "--disable-pip-version-check", "--isolated")
PIP_INSTALL = (*PIP, "install", "-q", "--no-index")


def wrong(*command, **more):
    """Returns what is wrong with a command that has to end with status 0."""
    status, said = printed(*command, **more)
    return [] if status == 0 else [f"status {status}: {said[-1500:]}"]


def wrong_held(top, *command, **more):
    """Returns what is wrong with a build of the example `held`, run over a plan that is valid."""
    files = [os.path.join(top, f"examples/fuses.{it}") for it in ("sas", "plan")]
    return differs(printed(*command, *files, **more), (0, f"{files[1]}: plan valid: 4 steps, cost 4\n"))


def project(languages, sources, *lines):
    """Returns a project of CMake in these languages, with these lines. Each source makes a program,
    which is linked with a target of the library."""
    front = ["cmake_minimum_required(VERSION 3.10)", f"project(held {languages})"]
    made = [*front, *lines, "find_package(sas 1.1 REQUIRED)"]
    for source, target in sources.items():
        name = os.path.basename(source).replace(".", "_")
        made.append(f"add_executable({name} {source})")
        made.append(f"target_link_libraries({name} PRIVATE {target})")
    return with_ends(made)


def wrong_project(project, compiler, prefix, folder):
    """Returns what is wrong with a project of CMake over the library below a prefix, which this
    compiler of C++ builds, if it is in C++."""
    os.makedirs(folder)
    put(os.path.join(folder, "CMakeLists.txt"), project)
    words = [f"-DCMAKE_PREFIX_PATH={prefix}", *([f"-DCMAKE_CXX_COMPILER={compiler}"] if compiler else [])]
    return wrong("cmake", "-S", folder, "-B", f"{folder}/build", *words) or wrong("cmake", "--build", f"{folder}/build")


def cmake_tests(top, prefix, place):
    """Yields projects of CMake over the library in a folder. They could show a target that names no file, a wrong version, a compiler
    that isn't told the standard of sas.hpp, and a project in C that needs a compiler of C++."""
    if not is_there("cmake"):
        return
    plus = [it for it in ("g++", "clang++") if is_there(it)]
    held, planner = f"{top}/library/examples/held", f"{CASES}/planner.cpp"
    sources = {f"{held}.c": "sas::sas", f"{held}.cpp": "sas::static", planner: "sas::sas"}
    both = project("C CXX", sources, OTHER_VERSION)
    earlier = project("CXX", {f"{held}.cpp": "sas::sas"}, "set(CMAKE_CXX_STANDARD 11)")
    made = [("C alone", project("C", {f"{held}.c": "sas::static"}), "")]
    made += [(it, both, it) for it in plus] + [(f"C++11, {it}", earlier, it) for it in plus]
    for name, text, compiler in made:
        folder = os.path.join(place, f"cmake {name}")
        yield f"CMake, {name}", wrong_project(text, compiler, prefix, folder)
        programs = re.findall(r"add_executable\((held\w*)", text)
        wrong_programs = [wrong_held(top, f"{folder}/build/{it}") for it in programs]
        yield f"CMake, {name}, {programs}", sum(wrong_programs, [])
        if text == both:
            got = printed(f"{folder}/build/planner_cpp", os.path.join(top, "examples/fuses.sas"))
            yield f"CMake, {name}, a planner's loop", differs(got, (0, PLANNER_PRINTS))


def pkg_config_tests(top, place):
    """Yields a program that is built by the flags of pkg-config. It could show a folder that isn't that of the library."""
    if not is_there("pkg-config"):
        return
    out, program = os.path.join(top, "library/out"), os.path.join(place, "held")
    status, flags = printed("pkg-config", "--cflags", "--libs", "sas >= 1.1", env={**os.environ, "PKG_CONFIG_PATH": out})
    yield "pkg-config", [] if status == 0 else [flags]
    words = [os.path.join(top, "library/examples/held.c"), *shlex.split(flags), f"-Wl,-rpath,{out}", "-o", program]
    yield "pkg-config, the program", wrong(*c_compiler(), *words) or wrong_held(top, program)
    if is_there("readelf"):
        needed = printed("readelf", "-d", program)[1]
        yield "pkg-config, what the program loads", [] if f"[{SHARED}]" in needed else [needed]


def cargo_tests(top, place):
    """Yields the tests of the crate and its example. They could show a crate that doesn't find the library, or that a compiler warns of."""
    if not is_there("cargo"):
        return
    env = {**os.environ, "CARGO_TARGET_DIR": os.path.join(place, "target"), "RUSTFLAGS": "-D warnings", "RUSTDOCFLAGS": "-D warnings"}
    at = ["--offline", "-q", "--manifest-path", os.path.join(top, "library/rust/Cargo.toml")]
    yield "cargo test", wrong("cargo", "test", *at, env=env)
    yield "cargo doc", wrong("cargo", "doc", *at, env=env)
    yield "cargo run", wrong_held(top, "cargo", "run", *at, "--example", "held", "--", env=env)
    # a relative folder is that of the caller first, then that of the crate
    for folder, tried, where in (
        (place, [place], place),
        ("none", [os.path.join(place, "none"), os.path.join(top, "library/rust/none")], place),
        ("out", [], os.path.join(top, "library")),
        ("../out", [], place),
        (os.path.join(top, "library/out"), [], place),
    ):
        status, said = printed("cargo", "build", *at, env={**env, "SAS_LIB_DIR": folder}, cwd=where)
        line = f"libsas isn't found in {' or '.join(tried)}"
        found = [it.strip() for it in said.splitlines()]
        yield f"cargo build, SAS_LIB_DIR={folder} in {where}", [] if (status and line in found if tried else status == 0) else [said]


def shared_tests(top, place):
    """Yields programs that are linked with libsas.so alone. They could show one that can't be started, and nothing that says why."""
    folder, held = os.path.join(place, "shared"), os.path.join(top, "library/examples/held")
    os.makedirs(folder)
    for name in (SHARED, "sas.h"):
        shutil.copy(os.path.join(top, "library/out", name), folder)
    os.symlink(SHARED, os.path.join(folder, "libsas.so"))
    words = ["-I", folder, f"{held}.c", "-L", folder, "-lsas", "-o", f"{place}/alone"]
    yield "libsas.so alone", wrong(*c_compiler(), *words)
    status, said = printed(f"{place}/alone", env={**os.environ, "LD_LIBRARY_PATH": ""})
    yield "libsas.so alone, what isn't found", [] if status and f"{SHARED}: cannot open shared object file" in said else [said]
    yield "libsas.so alone, LD_LIBRARY_PATH", wrong_held(top, f"{place}/alone", env={**os.environ, "LD_LIBRARY_PATH": folder})
    if not is_there("cargo"):
        return
    env = {**os.environ, "CARGO_TARGET_DIR": os.path.join(place, "shared target"), "SAS_LIB_DIR": folder}
    at = ["--offline", "--manifest-path", os.path.join(top, "library/rust/Cargo.toml")]
    status, said = printed("cargo", "build", *at, "--example", "held", env=env)
    lines = [f"there is no libsas.a in {folder}, so programs are linked with libsas.so"]
    lines.append("a program finds libsas.so.1 by LD_LIBRARY_PATH, by an rpath, or in the system's folders")
    yield "cargo build, libsas.so alone", [] if status == 0 and all(it in said for it in lines) else [said]
    program = os.path.join(env["CARGO_TARGET_DIR"], "debug/examples/held")
    yield "cargo build, libsas.so alone, LD_LIBRARY_PATH", wrong_held(top, program, env={**env, "LD_LIBRARY_PATH": folder})
    for name in (SHARED, "libsas.so"):
        os.remove(os.path.join(folder, name))
    put(os.path.join(folder, "libsas.so"), b"")
    status, said = printed("cargo", "build", *at, env=env)
    line = f"{folder} has libsas.so, but not libsas.so.1, which a program loads"
    yield "cargo build, without libsas.so.1", [] if status and line in said else [said]


def pip_tests(top, place):
    """Yields the wheel, and what pip installs in fresh environments. They could show a package that doesn't find its library, a wheel
    that is never the same twice or is refused by pip, and one that is installed without the library."""
    if printed(sys.executable, "-m", "pip", "--version")[0] != 0 or printed(sys.executable, "-c", "import ensurepip, venv")[0] != 0:
        print("without pip and venv")
        return
    yield from wheel_tests(top, place)
    source = os.path.join(top, "library/python")
    for name, words in (("a wheel", glob.glob(os.path.join(place, "wheel/*.whl"))), ("a folder", [source]), ("-e", ["-e", source])):
        yield from environment_tests(top, os.path.join(place, f"environment of {name}"), f"pip, {name}", words)
    bare, none = os.path.join(place, "bare/python"), os.path.join(place, "none")
    shutil.copytree(source, bare, ignore=shutil.ignore_patterns("__pycache__"))
    for form, words in (("a folder", (bare,)), ("-e", ("-e", bare))):
        status, said = printed(sys.executable, *PIP_INSTALL, "--target", none, *words)
        lines = [it.strip() for it in said.splitlines()]
        line = f"run make lib first: there is no {os.path.join(place, 'bare/out/libsas.so')}"
        well = status and line in lines and "Traceback" not in said
        yield f"pip, without the library, {form}", [] if well else [f"status {status}: {said}"]
        yield f"pip, without the library, {form}, nothing is installed", os.listdir(none) if os.path.isdir(none) else []


def wheel_tests(top, place):
    held = []
    for name in ("wheel", "same wheel"):
        folder = os.path.join(place, name)
        words = ["wheel", "-q", "--no-index", "-w", folder, os.path.join(top, "library/python")]
        yield f"pip wheel, into {name}", wrong(sys.executable, *PIP, *words)
        held += [(it, bytes_of(folder, it)) for it in os.listdir(folder)]
    yield "pip wheel, the same bytes twice", [] if len(held) == 2 and held[0] == held[1] else [f"{[name for name, _ in held]}"]
    with zipfile.ZipFile(io.BytesIO(held[0][1])) as wheel:
        files = {it: wheel.read(it) for it in wheel.namelist()}
        modes = {it.filename: it.external_attr >> 16 & 0o777 for it in wheel.infolist()}
    version = re.search('^__version__ = "(.*)"$', text_of(os.path.join(top, "library/python/sas/__init__.py")), re.MULTILINE)[1]
    about, program = f"sas-{version}.dist-info", f"sas-{version}.data/scripts/sas"
    yield "pip wheel, its name", [] if held[0][0] == f"sas-{version}-py3-none-linux_{platform.machine()}.whl" else [held[0][0]]
    package = files_below(os.path.join(top, "library/python/sas"), "sas") | files_below(os.path.join(top, "report"), "sas/report")
    expected = package - {"sas/report/sas-report"} | {"sas/libsas.so", *(f"{about}/{it}" for it in ("METADATA", "WHEEL", "RECORD"))}
    built = os.path.exists(os.path.join(top, "sas"))
    yield "pip wheel, its files", sorted(set(files) ^ (expected | {program} if built else expected))
    library, command = bytes_of(top, "library/out/libsas.so"), bytes_of(top, "sas") if built else None
    same = files["sas/libsas.so"] == library and files.get(program) == command and modes.get(program) in (0o755, None)
    yield "pip wheel, what was built", [] if same else ["it isn't that"]
    summary = re.search('^description = "(.+)"$', text_of(os.path.join(top, "library/python/pyproject.toml")), re.MULTILINE)[1]
    lines = f"\nName: sas\nVersion: {version}\nSummary: {summary}\nRequires-Python: >=3.8\n"
    yield "pip wheel, METADATA", [] if lines.encode() in files[f"{about}/METADATA"] else [f"{files[f'{about}/METADATA']}"]


def files_below(folder, to):
    """Returns the files below a folder, by their names in a wheel, below another one."""
    paths = (os.path.join(at, it) for at, _, names in os.walk(folder) for it in names)
    return {os.path.join(to, os.path.relpath(path, folder)) for path in paths if "__pycache__" not in path}


def environment_tests(top, folder, name, words):
    """Yields what pip installs of these words into a fresh environment, and that it removes it."""
    yield f"{name}, an environment", wrong(sys.executable, "-m", "venv", folder)
    python = os.path.join(folder, "bin/python")
    before = sorted(os.walk(folder))
    yield f"{name}, installed", wrong(python, *PIP_INSTALL, *words)
    env = {key: value for key, value in os.environ.items() if key not in ("PYTHONPATH", "LIBSAS", "LD_LIBRARY_PATH")}
    more = {"env": {**env, "PYTHONDONTWRITEBYTECODE": "1"}, "cwd": folder}
    yield f"{name}, a program", wrong_held(top, python, os.path.join(top, "library/examples/held.py"), **more)
    command = "import sas, importlib.metadata as it; about = it.metadata('sas')"
    command += "; print(sas.__file__, sas.version() == sas.__version__ == about['Version'], bool(about['Summary']))"
    got = printed(python, "-c", command, **more)
    place = os.path.join(top, "library/python/sas") if "-e" in words else glob.glob(f"{folder}/lib/python3*/site-packages/sas")[0]
    yield f"{name}, the package", differs(got, (0, f"{place}/__init__.py True True\n"))
    files = [os.path.join(top, f"examples/fuses.{it}") for it in ("sas", "plan")]
    commands = [[python, "-m", "sas"], *([[os.path.join(folder, "bin/sas")]] if os.path.exists(os.path.join(top, "sas")) else [])]
    for command in commands:
        got = printed(*command, "plan", *files, **more)
        yield f"{name}, {os.path.basename(command[0])}", differs(got, (0, "plan valid: 4 steps, cost 4\n"))
    page = os.path.join(folder, "page.html")
    status, said = printed(python, "-m", "sas", "report", "-o", page, *files, **more)
    # the package of a checkout has no report
    expected = (2, "python -m sas report: it isn't installed\n") if "-e" in words else (0, f"{page}: plan valid: 4 steps, cost 4\n")
    well = (status, said) == expected and ("-e" in words or b"plan valid: 4 steps, cost 4" in bytes_of(page))
    yield f"{name}, a report", [] if well else [f"{status}, {said}"]
    with contextlib.suppress(FileNotFoundError):
        os.remove(page)
    yield f"{name}, removed", wrong(python, *PIP, "uninstall", "-q", "-y", "sas")
    yield f"{name}, nothing is left", [] if sorted(os.walk(folder)) == before else ["files are left"]


def package_tests(place, top=TOP):
    yield from cmake_tests(top, os.path.join(top, "library/out"), place)
    yield from pkg_config_tests(top, place)
    yield from cargo_tests(top, place)
    yield from shared_tests(top, place)
    yield from pip_tests(top, place)


if __name__ == "__main__":
    harness.main(package_tests)

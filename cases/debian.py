#!/usr/bin/env python3
"""Packs a package of Debian twice, installs it by apt-get into a system of its own, and removes it.

    python3 cases/debian.py SAS

SAS is the program that was built, whose answers the one of the package has to give. The system is a folder in which a C library of this
machine's version counts as installed; nothing is loaded, and nothing of this machine is changed. Where dpkg-deb isn't there nothing is
tried, and where apt-get isn't, or the user isn't root, the package is packed alone. `lintian` is used where it is there. A line that begins
with `without` says so.

No proof sees what is in a package.
"""
import gzip
import os
import re

import harness
from harness import c_compiler, differs, ended, is_there
from pages import link_cases
from release import BILL, INSTALLED, LIBRARY, NOTES, PYTHON, REPORT, bill_tests, files_below, mark_tests
from release import named_files, pack_twice, python_tests
from texts import TOP, put, text_of

LIBRARIES, PACKAGES = "lib/x86_64-linux-gnu", "lib/python3/dist-packages"
DOCUMENTS = "usr/share/doc/sas"
# what the package has beside what install.sh installs
ADDED = {f"{DOCUMENTS}/changelog.gz", f"{DOCUMENTS}/copyright"}
C_LIBRARY = """\
Package: libc6
Status: install ok installed
Maintainer: nobody <nobody@localhost>
Architecture: amd64
Version: {}
Description: stands for the C library of this machine

"""
# what lintian warns of and stays: one package has what Debian puts into three, and no licence has been chosen yet
KEPT = {"package-name-doesnt-match-sonames", "link-to-shared-library-in-wrong-package", "copyright-without-copyright-notice"}


def wanted():
    """Returns the files of the package: those of the folders that install.sh names, with a compressed page, and all documents. The
    completion for zsh stands where that looks for those of other packages."""
    names = {it.format("sas") for it in INSTALLED | REPORT}
    names |= {it.format(LIBRARIES) for it in LIBRARY} | {it.format(PACKAGES) for it in PYTHON}
    pages = {f"usr/share/man/man1/{it}.1.gz" for it in ("sas", "sas-report")}
    names = {it.replace("zsh/site-functions", "zsh/vendor-completions") for it in names if not it.startswith("share/man")}
    return {f"usr/{it}" for it in names} | pages | ADDED


def entries_of(path):
    """Returns what dpkg-deb lists of a package: the mode, owner, time and name of each file and folder."""
    lines = ended("dpkg-deb", "-c", path)[1].decode().splitlines()
    return [(mode, owner, f"{day} {hour}", name) for mode, owner, _, day, hour, name in (it.split(None, 5) for it in lines)]


def packing_tests(place, sas):
    """Yields how a package is packed. They could show one that is never the same twice, that asks for the toolchain, lacks a file, has one
    that is dpkg's to write, that isn't root's, or is called otherwise than its version."""
    path, difference = pack_twice("deb.py", place)
    yield "the same bytes twice", difference
    version = ended(sas, "--version")[1].decode().split()[-1]
    yield "the name", differs(os.path.basename(path), f"sas_{version}_amd64.deb")
    fields = ended("dpkg-deb", "-f", path, "Package", "Version", "Architecture")[1].decode()
    yield "the fields", differs(fields, f"Package: sas\nVersion: {version}\nArchitecture: amd64\n")
    entries = entries_of(path)
    names = {name.partition(" -> ")[0].removeprefix("./") for *_, name in entries if not name.endswith("/")}
    documents = {it for it in names if it.startswith(f"{DOCUMENTS}/")} - ADDED
    yield "the files", sorted(names - documents ^ wanted())
    yield "the documents", [it for it in ("README.md", "docs/GUIDE.md", "examples/fuses.sas") if f"{DOCUMENTS}/{it}" not in documents]
    yield "no notes of install.sh", sorted(it for it in names if it.endswith(NOTES))
    modes = {(mode, owner) for mode, owner, *_ in entries}
    yield "modes and owners", sorted(modes - {(it, "root/root") for it in ("drwxr-xr-x", "-rw-r--r--", "-rwxr-xr-x", "lrwxrwxrwx")})
    yield "one time", differs(len({moment for _, _, moment, _ in entries}), 1)
    yield from lintian_tests(path)


def lintian_tests(path):
    """Yields each warning and error of lintian. They could show what a rule of Debian forbids."""
    if is_there("lintian"):
        words = ["--allow-root"] * (os.geteuid() == 0)
        said = ended("lintian", *words, path, env={**os.environ, "LC_ALL": "C"})[1].decode()
        found = re.findall(r"^[EW]: sas: (\S+).*$", said, re.MULTILINE)
        yield "lintian", [it for it in found if it not in KEPT]


def system(place):
    """Makes a system without anything but the C library, and returns the words of apt-get that install into it."""
    root = os.path.join(place, "system")
    for it in ("var/lib/dpkg/info", "var/lib/dpkg/updates", "var/lib/dpkg/triggers", "var/lib/apt/lists/partial", "var/log/apt"):
        os.makedirs(os.path.join(root, it))
    for it in ("var/cache/apt/archives/partial", "etc/apt/preferences.d", "etc/apt/apt.conf.d"):
        os.makedirs(os.path.join(root, it))
    version = ended("dpkg-query", "-W", "-f", "${Version}", "libc6")[1].decode()
    put(f"{root}/var/lib/dpkg/status", C_LIBRARY.format(version))
    put(f"{root}/var/lib/dpkg/info/libc6.list", "")
    options = [f"Dir={root}", f"Dir::State::status={root}/var/lib/dpkg/status", f"DPkg::Options::=--root={root}"]
    # the system has no shell for the scripts of a package
    options += ["DPkg::Options::=--force-script-chrootless"]
    options += ["APT::Sandbox::User=root", "Dir::Bin::methods=/usr/lib/apt/methods", "Dir::Bin::dpkg=/usr/bin/dpkg"]
    return root, ["apt-get", "-qq", "-y", *(word for it in options for word in ("-o", it))]


def install_tests(place, sas):
    """Yields a package that apt-get installs and removes. They could show one that asks for what isn't there, whose sums are wrong, whose
    program or library doesn't run, or that leaves a file behind."""
    if not is_there("apt-get"):
        return
    if os.geteuid():
        print("without apt-get install: only root can try it")
        return
    root, apt = system(place)
    path = os.path.join(place, "first", os.listdir(os.path.join(place, "first"))[0])
    status, out, errors = ended(*apt, "install", path)
    yield "apt-get install", [] if status == 0 else [f"{status}, {out!r}, {errors!r}"]
    yield "dpkg --verify", differs(ended("dpkg", f"--root={root}", "--verify", "sas"), (0, b"", b""))
    words = ["plan", "examples/fuses.sas", "examples/fuses.plan"]
    yield "the program", differs(ended(f"{root}/usr/bin/sas", *words, cwd=f"{root}/{DOCUMENTS}"), ended(sas, *words))
    for tests in (link_cases, named_files, mark_tests):
        yield from tests(f"{root}/{DOCUMENTS}")
    yield from bill_tests(text_of(f"{root}/{DOCUMENTS}/{BILL}"), False)
    yield from python_tests("python3", {"PYTHONPATH": f"{root}/usr/{PACKAGES}"}, f"{root}/usr/{PACKAGES}")
    with gzip.open(f"{root}/usr/share/man/man1/sas.1.gz") as page:
        yield "the manual page", [] if b"\n.Pa /usr/share/doc/sas .\n" in page.read() else ["names another folder"]
    yield from library_tests(root, place)
    there = f"{root}/usr/share/man/man1/sas.1.gz", f"{root}/usr/bin/sas"
    status, out, errors = ended(*apt, "remove", "sas")
    yield "apt-get remove", [] if status == 0 and not any(map(os.path.exists, there)) else [f"{status}, {out!r}, {errors!r}"]
    yield "nothing is left", sorted(files_below(f"{root}/usr")) if os.path.exists(f"{root}/usr") else []


def library_tests(root, place):
    """Yields an example over the library that is installed. It could show a library that isn't found where a compiler looks for it."""
    compiler, built = c_compiler(), os.path.join(place, "held")
    if not is_there(compiler[0]):
        return
    folder = f"{root}/usr/{LIBRARIES}"
    words = [f"{root}/{DOCUMENTS}/library/examples/held.c", "-I", f"{root}/usr/include", "-L", folder, "-lsas", f"-Wl,-rpath,{folder}"]
    yield "held.c is built", differs(ended(*compiler, *words, "-o", built), (0, b"", b""))
    files = ["examples/fuses.sas", "examples/fuses.plan"]
    yield "held.c", differs(ended(built, *files, cwd=TOP), (0, b"examples/fuses.plan: plan valid: 4 steps, cost 4\n", b""))


def tests(sas, place):
    if all([is_there(it) for it in ("dpkg-deb", "readelf")]):
        yield from packing_tests(place, sas)
        yield from install_tests(place, sas)


if __name__ == "__main__":
    harness.main(tests)

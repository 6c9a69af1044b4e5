#!/usr/bin/env python3
"""Packs a package of Debian, sas_VERSION_amd64.deb or sas_VERSION_arm64.deb, of what install.sh installs from a release. Prints its place
and its SHA-256.

    python3 release/deb.py [FOLDER [PLATFORM]]

FOLDER and PLATFORM are those of dist.py, which packs the release. The program is linked from the same object, but with the C library of
the system, as Debian wants it. The package depends on the version of that library which the program and libsas.so ask for.

`dpkg-deb`, `readelf` and `strip` have to be there. The same files at the same commit, with the same compilers and the same `dpkg-deb`,
give the same bytes, whatever the umask.
"""
import glob
import gzip
import hashlib
import io
import os
import re
import shutil
import subprocess
import sys
import tarfile
import tempfile
from collections import namedtuple
from email.utils import formatdate

import bill
import dist
from dist import proving

# what Debian calls a platform, the folder of its libraries below /usr, and the `strip` for them
Debian = namedtuple("Debian", "architecture libraries strip")
DEBIANS = {
    "x86_64-linux": Debian("amd64", "lib/x86_64-linux-gnu", "strip"),
    "aarch64-linux": Debian("arm64", "lib/aarch64-linux-gnu", "aarch64-linux-gnu-strip"),
}
DOCUMENTS = "usr/share/doc/sas"
# where Debian has packages of Python, and completions for zsh that aren't zsh's own
PYTHON, ZSH = "lib/python3/dist-packages", "usr/share/zsh/vendor-completions"
CONTROL = """\
Package: sas
Version: {version}
Architecture: {architecture}
Maintainer: {maintainer}
Installed-Size: {size}
Depends: libc6 (>= {c_library})
Recommends: python3
Section: science
Priority: optional
Description: proved validator of task files and plans of Fast Downward
 The program sas checks whether a plan solves a planning task. It reads the
 files output.sas and sas_plan of the Fast Downward planning system. Each
 verdict that it prints is right, which is proved for all inputs.
 .
 The package also has the library libsas for C, C++ and Python.
"""
# the loader's cache is renewed, and packages that are linked with the library depend on this one
TRIGGERS = "activate-noawait ldconfig\n"
LIBRARIES = "libsas 1 sas (>= {version})\n"
# what Python writes beside the files of a package isn't known to dpkg
BEFORE_REMOVAL = """\
#!/bin/sh
set -e
rm -rf "$DPKG_ROOT/usr/lib/python3/dist-packages/sas/__pycache__" "$DPKG_ROOT/usr/share/sas/report/__pycache__"
"""
COPYRIGHT = """\
sas, a proved validator of task files and plans of Fast Downward

No licence has been chosen yet. The rights are those of its authors.
"""
CHANGES = """\
sas ({version}) unstable; urgency=medium

  * CHANGELOG.md says what is new.

 -- {maintainer}  {date}
"""


def write(path, held, mode=0o644):
    """Writes a text or bytes into a file that anyone may read."""
    with open(path, "wb") as file:
        file.write(held.encode() if isinstance(held, str) else held)
    os.chmod(path, mode)


def files_below(folder):
    """Returns the paths of the files and links below a folder, in order."""
    return sorted(os.path.join(at, name) for at, _, names in os.walk(folder) for name in names)


def install(platform, root, place):
    """Installs a release below a folder, with the program for the C library of the system. Returns the version."""
    top, held = dist.release(platform)
    with tarfile.open(fileobj=io.BytesIO(held)) as tar:
        tar.extractall(place)
    release = os.path.join(place, top)
    write(f"{release}/sas", dist.linked(platform, place, "-fPIE", "-pie", "-Wl,-z,relro,-z,now"), 0o755)
    version = dist.version_of()
    write(f"{release}/{bill.NAME}", bill.written(version, dist.built_with(platform), dist.commit_of()[1]))
    words = ["PREFIX=/usr", f"LIBDIR={DEBIANS[platform].libraries}", f"PYTHONDIR={PYTHON}", f"DESTDIR={root}"]
    dist.run(f"{release}/install.sh", "install", *words, stdout=subprocess.DEVNULL)
    return version


def fit(root, about, moment, strip):
    """Makes what is below a folder fit for Debian: what dpkg notes itself is left out, the completion for zsh stands with those of other
    packages, the link to the library is as short as can be, pages are compressed, the library has no names for debuggers, and there are
    the licence and the changes."""
    os.remove(f"{root}/{DOCUMENTS}/INSTALLED")
    os.rename(f"{root}/usr/share/zsh/site-functions", f"{root}/{ZSH}")
    package = os.path.realpath(f"{root}/usr/{PYTHON}/sas")
    to = os.path.relpath(os.path.realpath(f"{package}/libsas.so"), package)
    os.remove(f"{package}/libsas.so")
    os.symlink(to, f"{package}/libsas.so")
    for page in glob.glob(f"{root}/usr/share/man/man1/*.1"):
        write(f"{page}.gz", gzip.compress(dist.bytes_of(page), mtime=0))
        os.remove(page)
    changes = CHANGES.format(date=formatdate(moment), **about).encode()
    write(f"{root}/{DOCUMENTS}/changelog.gz", gzip.compress(changes, mtime=0))
    write(f"{root}/{DOCUMENTS}/copyright", COPYRIGHT)
    library, = (it for it in files_below(root) if ".so." in it)
    dist.run(strip, "--strip-unneeded", "--remove-section=.comment", library)
    # it is loaded, and not run
    os.chmod(library, 0o644)


def c_library(root):
    """Returns the latest version of the C library that a file below a folder asks for."""
    found = {(2, 17)}
    for path in files_below(root):
        if not os.path.islink(path) and dist.bytes_of(path).startswith(b"\x7fELF"):
            asked = dist.printed("readelf", "-W", "-V", path) or sys.exit("not packed: readelf isn't there")
            found |= {tuple(map(int, it.split("."))) for it in re.findall(r"\bGLIBC_([\d.]+)\b", asked)}
    return ".".join(map(str, max(found)))


def control(root, about):
    """Writes what dpkg reads of the package into its folder DEBIAN."""
    paths = files_below(root)
    size = sum(max(1, -(-os.lstat(it).st_size // 1024)) for it in paths)
    sums = [f"{hashlib.md5(dist.bytes_of(it)).hexdigest()}  {os.path.relpath(it, root)}\n" for it in paths if not os.path.islink(it)]
    os.mkdir(f"{root}/DEBIAN")
    write(f"{root}/DEBIAN/control", CONTROL.format(size=size, **about))
    write(f"{root}/DEBIAN/md5sums", "".join(sums))
    write(f"{root}/DEBIAN/triggers", TRIGGERS)
    write(f"{root}/DEBIAN/shlibs", LIBRARIES.format(**about))
    write(f"{root}/DEBIAN/prerm", BEFORE_REMOVAL, 0o755)


def packed(root, moment, path):
    """Packs what is below a folder into a package. All in it has one time."""
    for at, folders, names in os.walk(root):
        for it in (*folders, *names):
            os.utime(os.path.join(at, it), (moment, moment), follow_symlinks=False)
    os.utime(root, (moment, moment))
    env = {**os.environ, "SOURCE_DATE_EPOCH": str(moment)}
    dist.run("dpkg-deb", "--root-owner-group", "-Zxz", "--build", root, path, env=env, stdout=subprocess.DEVNULL)


def main(to=dist.TOP, platform=proving.NATIVE):
    debian = DEBIANS[proving.known(platform)]
    if not shutil.which("dpkg-deb"):
        sys.exit("not packed: dpkg-deb isn't there")
    os.umask(0o022)
    moment = dist.commit_of()[1]
    maintainer = dist.printed("git", "log", "-1", "--format=%an <%ae>") or "unknown <unknown@localhost>"
    with tempfile.TemporaryDirectory() as place:
        root = os.path.join(place, "root")
        os.mkdir(root)
        about = {"version": install(platform, root, place), "architecture": debian.architecture, "maintainer": maintainer}
        about["c_library"] = c_library(root)
        fit(root, about, moment, debian.strip)
        control(root, about)
        path = os.path.join(to, f"sas_{about['version']}_{debian.architecture}.deb")
        packed(root, moment, path)
    print(f"{hashlib.sha256(dist.bytes_of(path)).hexdigest()}  {path}")


if __name__ == "__main__":
    main(*sys.argv[1:])

"""Builds the wheel of the package `sas` for pip, without other packages. `make lib` has to have built libsas.so, which the wheel holds;
it holds the program, too, if that is built. The same files give the same bytes."""
import base64
import hashlib
import os
import re
import struct
import sys
import zipfile

HERE = os.path.dirname(os.path.abspath(__file__))
PACKAGE = os.path.join(HERE, "sas")
REPORT = os.path.join(os.path.dirname(os.path.dirname(HERE)), "report")
LIBRARY = os.path.join(os.path.dirname(HERE), "out/libsas.so")
PROGRAM = os.path.join(os.path.dirname(os.path.dirname(HERE)), "sas")
# the number of a processor in the header of a file that it executes, and its name in the tag of a wheel
MACHINES = {62: "x86_64", 183: "aarch64"}
# a wheel is a zip file, which knows no earlier time
TIME = 1980, 1, 1, 0, 0, 0


def content_of(path):
    with open(path, "rb") as file:
        return file.read()


def machine_of(content):
    """Returns the name of the processor that executes a file; None if it is none that has a name here."""
    return MACHINES.get(struct.unpack_from("<H", content, 18)[0]) if content.startswith(b"\x7fELF") else None


def record_of(files, record):
    """Returns the text of RECORD: each file with its sum and its length."""
    sums = {name: base64.urlsafe_b64encode(hashlib.sha256(held).digest()).rstrip(b"=").decode() for name, held in files.items()}
    return "".join(f"{name},sha256={sums[name]},{len(held)}\n" for name, held in files.items()) + f"{record},,\n"


def named(text, name):
    """Returns the string that a line of a file assigns to a name."""
    return re.search(rf'^{name} = "(.*)"$', text.decode(), re.MULTILINE)[1]


def files_below(folder, to):
    """Returns the files below a folder, each by its name in the wheel below another one."""
    paths = (os.path.join(at, name) for at, _, names in os.walk(folder) for name in names)
    # a checkout has a script beside the report, which is `python -m sas report` in a wheel
    kept = sorted(path for path in paths if "__pycache__" not in path and not path.endswith("/sas-report"))
    return {os.path.join(to, os.path.relpath(path, folder)): content_of(path) for path in kept}


def package_files():
    """Returns the files of the package, and in it those of reports and the library."""
    return {**files_below(PACKAGE, "sas"), **files_below(REPORT, "sas/report"), "sas/libsas.so": content_of(LIBRARY)}


def written(wheel_directory, files):
    """Writes a wheel of these files, and returns its name."""
    version, machine = named(content_of(os.path.join(PACKAGE, "__init__.py")), "__version__"), machine_of(content_of(LIBRARY))
    summary, tag = named(content_of(os.path.join(HERE, "pyproject.toml")), "description"), f"py3-none-linux_{machine}"
    if os.path.isfile(PROGRAM) and machine_of(content_of(PROGRAM)) == machine:
        files[f"sas-{version}.data/scripts/sas"] = content_of(PROGRAM)
    about = f"sas-{version}.dist-info"
    metadata = f"Metadata-Version: 2.1\nName: sas\nVersion: {version}\nSummary: {summary}\nRequires-Python: >=3.8\n"
    wheel = f"Wheel-Version: 1.0\nGenerator: sas\nRoot-Is-Purelib: false\nTag: {tag}\n"
    files.update({f"{about}/METADATA": metadata.encode(), f"{about}/WHEEL": wheel.encode()})
    files[f"{about}/RECORD"] = record_of(files, f"{about}/RECORD").encode()
    name = f"sas-{version}-{tag}.whl"
    with zipfile.ZipFile(os.path.join(wheel_directory, name), "w") as file:
        for path, held in files.items():
            entry = zipfile.ZipInfo(path, TIME)
            entry.external_attr = (0o100755 if "/scripts/" in path else 0o100644) << 16
            file.writestr(entry, held, zipfile.ZIP_DEFLATED)
    return name


def check_library():
    """Ends with a line if the library isn't built."""
    if not os.path.exists(LIBRARY):
        sys.exit(f"run make lib first: there is no {LIBRARY}")


def build_wheel(wheel_directory, config_settings=None, metadata_directory=None):
    """Builds the wheel, and returns its name: the hook of PEP 517."""
    check_library()
    return written(wheel_directory, package_files())


def build_editable(wheel_directory, config_settings=None, metadata_directory=None):
    """Builds a wheel that leads to the package where it is, for `pip install -e`, and returns its name: the hook of PEP 660."""
    check_library()
    return written(wheel_directory, {"sas.pth": f"{HERE}\n".encode()})

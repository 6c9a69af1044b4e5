"""The bill of materials of a release or a package, as JSON of CycloneDX 1.5: what is linked into the program and the library, and with
which toolchain both were proved and built. The same files at the same commit give the same bytes.
"""
import json
import re
import subprocess
import time

NAME = "sas.cdx.json"
# what the archive of the GNU C library says of itself
GNU_C_LIBRARY = re.compile(rb"GNU C Library \(([^)]*)\) \w+ release version (\d[\d.]*\d)")


def component(kind, name, version, about, **more):
    return {"type": kind, "bom-ref": name, "name": name, "version": version, "description": about, **more}


def c_library(compiler):
    """Returns the C library that a compiler links statically."""
    path = subprocess.run([*compiler, "-print-file-name=libc.a"], check=True, capture_output=True, encoding="utf-8").stdout.strip()
    with open(path, "rb") as file:
        found = GNU_C_LIBRARY.search(file.read())
    if not found:
        return component("library", "C library", "unknown", "not the GNU C library; linked into the program")
    made, version = map(bytes.decode, found.groups())
    return component("library", "glibc", version, f"the C library ({made}), linked into the program")


def library(name, about, toolchain):
    """Returns a library of the toolchain, with the Rust crates that it is made after."""
    crates = about["after"].items()
    after = [{"type": "library", "name": it, "version": version, "purl": f"pkg:cargo/{it}@{version}"} for it, version in crates]
    if not after:
        return component("library", name, toolchain, "a library of the toolchain, which has its version")
    text = "a library of the toolchain, rewritten in Rattle after the Rust crate of this version"
    return component("library", name, after[0]["version"], text, pedigree={"ancestors": after})


def written(version, built_with, moment, linked=None):
    """Returns the text of the bill: of this version, by what the build noted, and with the C library if that is linked in."""
    toolchain = built_with["toolchain"].split()[0]
    text = "prover and compiler, with which all is proved and built"
    prover = component("application", "rattle", toolchain, f"{text}: {built_with['toolchain']}", scope="excluded")
    parts = [library(name, about, toolchain) for name, about in built_with["libraries"].items()] + ([linked] if linked else [])
    uses = {name: about["uses"] for name, about in built_with["libraries"].items()} | {"sas": [it["bom-ref"] for it in parts]}
    about = {
        "bomFormat": "CycloneDX",
        "specVersion": "1.5",
        "version": 1,
        "metadata": {
            "timestamp": time.strftime("%Y-%m-%dT%H:%M:%SZ", time.gmtime(moment)),
            "component": component("application", "sas", version, "proved validator of task files and plans of Fast Downward"),
        },
        "components": [prover, *parts],
        "dependencies": [{"ref": name, "dependsOn": sorted(used)} for name, used in sorted(uses.items())],
    }
    return (json.dumps(about, indent=1) + "\n").encode()

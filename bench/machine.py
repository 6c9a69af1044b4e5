"""The words of a script that measures, and when and where it did, as lines above its table."""
import argparse
import hashlib
import os
import platform
import shutil
import sys
import time


def arguments(about, *words, **flags):
    """Parses the words of the command line, of which those with a question mark may be left out,
    and flags whose types are those of their defaults."""
    formatter = argparse.RawDescriptionHelpFormatter
    parser = argparse.ArgumentParser(description=about, formatter_class=formatter)
    for word in words:
        parser.add_argument(word.rstrip("?"), nargs="?" if word.endswith("?") else None)
    for flag, default in flags.items():
        kind = {"action": "store_true"} if default is False else {"type": type(default)}
        parser.add_argument("--" + flag.replace("_", "-"), default=default, **kind)
    return parser.parse_args()


def cpu_model():
    """Returns the system's name of the processor, as far as it has one."""
    try:
        with open("/proc/cpuinfo") as file:
            models = [line.split(":", 1)[1].strip() for line in file if line.startswith("model name")]
    except OSError:
        models = []
    return models[0] if models else platform.processor() or platform.machine()


def load():
    """Returns how many processes ran or waited to run, on average over 1, 5 and 15 minutes."""
    return "load %.2f %.2f %.2f" % os.getloadavg()


def program_line(path):
    """Returns the line about a program: its name and a checksum of its file, which sets one build apart from another."""
    found = shutil.which(path)
    if not found:
        sys.exit("there is no program %s" % path)
    with open(found, "rb") as file:
        return "%s (sha256 %s..)" % (path, hashlib.sha256(file.read()).hexdigest()[:12])


def print_head(cells, program, beside="", *notes):
    """Prints the lines in front of a table, and its head."""
    system = cpu_model(), os.cpu_count(), platform.system(), platform.release()
    print("Date: " + time.strftime("%Y-%m-%d %H:%M:%S UTC", time.gmtime()))
    print("Machine: %s, %d cores, %s %s" % system)
    print("Program: " + program_line(program))
    if beside:
        print("Beside: " + program_line(beside))
    print("\n".join(["Before: " + load(), *notes, ""]))
    print_row(cells)
    print("|" + "---|" * len(cells), flush=True)


def print_row(cells):
    """Prints a row of a table, as Markdown writes it."""
    print("| " + " | ".join(cells) + " |", flush=True)


def print_rows(rows):
    """Prints rows, each with whether it is well, and ends with status 1 if one isn't."""
    are_well = True
    for cells, is_well in rows:
        print_row(cells)
        are_well = are_well and is_well
    sys.exit(0 if are_well else 1)

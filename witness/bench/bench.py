#!/usr/bin/env python3
"""Measures `rlc` beside two compilers on one machine, in one go, and prints tables in Markdown.

    python3 witness/bench/bench.py [--cmd PATH] [--only NAME..] [--methods N]

PATH is a built `rlc` (by default the one that the gate leaves). A figure is processor time, user and system together, and the most
memory that the process held. `ecj` and `javac` compile the same files, with the annotations beside them; where one is not there its
columns stay empty. The tables are: `service` (a program of the shape of an ordinary service, also for `certify` and `verify`),
`growth` (the same with 1,000 to 20,000 methods), `bodies` (one method with 10 to 2,000 variables and statements).
"""
import argparse
import os
import shutil
import subprocess
import sys
import tempfile

import programs

HERE = os.path.dirname(os.path.abspath(__file__))


def measured(words, folder, output=None):
    """Runs a command; returns its status, its processor seconds, and the MB that it held at the most."""
    with open(output or os.devnull, "wb") as out:
        started = subprocess.Popen(words, cwd=folder, stdin=subprocess.DEVNULL, stdout=out, stderr=subprocess.DEVNULL)
        _, status, used = os.wait4(started.pid, 0)
    return os.waitstatus_to_exitcode(status), used.ru_utime + used.ru_stime, used.ru_maxrss / 1024


def row(name, figures):
    print(f"| {name} | " + " | ".join("" if it is None else f"{it[1]:.2f} s, {it[2]:.0f} MB" for it in figures) + " |", flush=True)


def compilers(folder, names, annotations):
    """Returns the figures of `ecj` and of `javac`, or None for one that is not there or does not take the program."""
    figures = []
    for compiler in ("ecj", "javac"):
        it = None
        if shutil.which(compiler):
            version = ["-17", "-proc:none"] if compiler == "ecj" else ["--release", "17"]
            it = measured([compiler, *version, "-nowarn", "-d", "classes", *names, *annotations], folder)
            if it[0] != 0:
                print(f"{compiler} ends with {it[0]}", file=sys.stderr)
                it = None
        figures.append(it)
    return figures


def checked(cmd, folder, names):
    it = measured([cmd, "check", *names], folder)
    if it[0] != 0:
        sys.exit(f"check ends with {it[0]} in {folder}")
    return it


def service(cmd, methods):
    """The figures of a program of an ordinary shape."""
    with tempfile.TemporaryDirectory() as folder:
        names, annotations = programs.write(folder, methods, max(1, methods // 100))
        size = sum(os.path.getsize(os.path.join(folder, name)) for name in names)
        print(f"\n{methods} methods in {len(names)} files, {size / 1e6:.1f} MB\n")
        print("| | processor time, most memory |\n|---|---|")
        row("`rlc check`", [checked(cmd, folder, names)])
        ecj, javac = compilers(folder, names, annotations)
        row("`ecj`", [ecj])
        row("`javac`", [javac])
        certificate = os.path.join(folder, "certificate")
        made = measured([cmd, "certify", *names], folder, certificate)
        if made[0] == 0:
            row("`rlc certify`", [made])
            row("`rlc verify`", [measured([cmd, "verify", "--cert", "certificate", *names], folder)])
            print(f"\nThe certificate has {os.path.getsize(certificate) / 1e6:.1f} MB.")


def growth(cmd, _methods):
    """How cost grows with the number of methods."""
    print("\n| methods | `rlc check` | `ecj` | `javac` |\n|---|---|---|---|")
    for methods in (1000, 2500, 5000, 10000, 20000):
        with tempfile.TemporaryDirectory() as folder:
            names, annotations = programs.write(folder, methods, max(1, methods // 100))
            row(f"{methods}", [checked(cmd, folder, names), *compilers(folder, names, annotations)])


def body(size):
    """Returns a method of so many variables, each with a statement that uses it."""
    lines = ["import java.io.*;", "class Body { static int run(String name) throws IOException {", "int sum = 0;"]
    for number in range(size):
        lines.append(f"int v{number} = sum + {number};")
        lines.append(f"if (v{number} > {number}) {{ sum = sum + v{number}; }}")
    lines += ["InputStream in = new FileInputStream(name);", "try { sum += in.read(); } finally { in.close(); }", "return sum; } }", ""]
    return "\n".join(lines)


def bodies(cmd, _methods):
    """How cost grows with the size of a body. (A body has at most 160 variables: larger ones are split into blocks.)"""
    print("\n| variables and statements in one body | `rlc check` |\n|---|---|")
    for size in (10, 50, 150):
        with tempfile.TemporaryDirectory() as folder:
            with open(os.path.join(folder, "Body.java"), "w", encoding="utf-8") as file:
                file.write(body(size))
            row(f"{size}", [checked(cmd, folder, ["Body.java"])])


TABLES = {"service": service, "growth": growth, "bodies": bodies}


def main():
    words = argparse.ArgumentParser(description=__doc__, formatter_class=argparse.RawDescriptionHelpFormatter)
    words.add_argument("--cmd", default=os.path.join(HERE, "../../crates/rlc/out/rlc"))
    words.add_argument("--only", nargs="*", choices=list(TABLES), default=list(TABLES))
    words.add_argument("--methods", type=int, default=5000)
    given = words.parse_args()
    cmd = os.path.abspath(given.cmd)
    if not os.path.isfile(cmd):
        sys.exit(f"{cmd} is not there: build it first, or name another by --cmd")
    for name in given.only:
        TABLES[name](cmd, given.methods)


if __name__ == "__main__":
    main()

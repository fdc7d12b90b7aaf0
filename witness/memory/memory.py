#!/usr/bin/env python3
"""Refuses each growth of memory of some commands in turn, and says what the program answers then.

    python3 witness/memory/memory.py [--cmd PATH]

PATH is a built `rlc` (by default the one that the gate leaves, crates/rlc/out/rlc). Each command runs once to count its growths.
Then it runs again for each of them: once with that growth alone refused, once with it and all behind it. The status is then 6 and
nothing was written, or status and text are those of the run without a refusal. The table of the counts is printed, and the end
status is 0 exactly where no answer is another one. It needs a C compiler (`cc`).
"""
import argparse
import concurrent.futures
import os
import subprocess
import sys
import tempfile

HERE = os.path.dirname(os.path.abspath(__file__))
NO_MEMORY = 6

SOCK = '@InheritableMustCall("close") class Sock { void close() {} void use() {} }\n'
CLOSES = SOCK + "class Main { static void main(String[] args) {\nSock s = new Sock(); s.close();\n} }\n"
FORGETS = SOCK + "class Main { static void main(String[] args) {\nSock s = new Sock();\n} }\n"
TWO_SOCKETS = """import java.io.*; import java.net.*;
class Main { static void main(String[] p) throws IOException {
try (Socket a = new Socket("h", 1); Socket b = new Socket("h", 2)) { }
} }
"""
CLIENT = """package demo;
import java.io.*;
import java.net.Socket;
import org.checkerframework.checker.mustcall.qual.*;
public class Client {
  public static void main(String[] args) throws IOException {
    if (args.length < 2) { System.out.println("host port"); return; }
    try (Socket s = new Socket(args[0], Integer.parseInt(args[1]));
         BufferedReader r = new BufferedReader(new InputStreamReader(s.getInputStream()));
         PrintWriter w = new PrintWriter(s.getOutputStream(), true)) {
      w.println("GET /");
      String line = r.readLine();
      while (line != null) { System.out.println(line); line = r.readLine(); }
    }
  }
}
"""
WIRE = """package wire;
@InheritableMustCall("close")
public class Wire {
  public Wire() throws java.io.IOException;
  public void send() throws java.io.IOException;
  public void close();
}
"""
SENDS = """import wire.Wire;
class Main { static void main(String[] p) throws java.io.IOException {
Wire w = new Wire();
try { w.send(); } finally { w.close(); }
} }
"""
EMPTY_CERTIFICATE = "rlc-cert 1\nbody 0 1\n0 0 this lent - full\nend\n"
SETTINGS = 'version = 2\nignored = ["java.lang.Error"]\nexact = []\n'

# what it is, its files, its words
COMMANDS = [
    ("a program that closes", {"A.java": CLOSES}, "check A.java"),
    ("a program that forgets", {"A.java": FORGETS}, "check A.java"),
    ("a run with choices", {"c": "0\n2\n", "B.java": TWO_SOCKETS}, "run --main Main --choices c B.java"),
    ("a socket client", {"Client.java": CLIENT}, "check Client.java"),
    ("a generated program", {}, "gen --seed 1 --methods 4"),
    ("a stub and settings", {"wire.astub": WIRE, "f": SETTINGS, "M.java": SENDS}, "check --config f wire.astub M.java"),
    ("settings that are printed", {"f": SETTINGS}, "settings --config f"),
    ("a certificate that is written", {"A.java": CLOSES}, "certify A.java"),
    ("a certificate that is checked", {"c": EMPTY_CERTIFICATE, "A.java": "class A { }\n"}, "verify --cert c A.java"),
]


def answer(cmd, shim, folder, words, **refuse):
    """Returns the status and the text of the command, with growths refused as `refuse` says."""
    env = {"PATH": os.environ.get("PATH", ""), "LD_PRELOAD": shim, **{name: str(it) for name, it in refuse.items()}}
    ran = subprocess.run([cmd, *words], cwd=folder, env=env, stdin=subprocess.DEVNULL, capture_output=True, timeout=120)
    return ran.returncode, ran.stdout


def try_command(cmd, shim, files, words):
    """Returns how many growths the command asks for, how many answers were 6, how many its own, and the others."""
    with tempfile.TemporaryDirectory() as folder:
        for name, text in files.items():
            with open(os.path.join(folder, name), "w", encoding="utf-8") as file:
                file.write(text)
        counted = os.path.join(folder, "growths")
        own = answer(cmd, shim, folder, words, COUNT=counted)
        with open(counted, encoding="utf-8") as file:
            growths = int(file.read())

        def refused(how):
            return how, answer(cmd, shim, folder, words, **dict([how]))

        hows = [(flag, number) for number in range(1, growths + 1) for flag in ("REFUSE", "REFUSE_FROM")]
        with concurrent.futures.ThreadPoolExecutor(os.cpu_count()) as pool:
            answers = list(pool.map(refused, hows))
    no_memory = sum(it == (NO_MEMORY, b"") for _, it in answers)
    same = sum(it == own for _, it in answers)
    others = [(how, it) for how, it in answers if it not in ((NO_MEMORY, b""), own)]
    return growths, no_memory, same, others


def main():
    words = argparse.ArgumentParser(description=__doc__, formatter_class=argparse.RawDescriptionHelpFormatter)
    words.add_argument("--cmd", default=os.path.join(HERE, "../../crates/rlc/out/rlc"))
    cmd = os.path.abspath(words.parse_args().cmd)
    if not os.path.isfile(cmd):
        sys.exit(f"{cmd} is not there: build it first, or name another by --cmd")
    wrong = 0
    print("| command | growths | answers 6, nothing written | its own answer | another answer |")
    print("|---|---|---|---|---|")
    with tempfile.TemporaryDirectory() as folder:
        shim = os.path.join(folder, "refuse_growth.so")
        subprocess.run(["cc", "-O2", "-shared", "-fPIC", "-o", shim, os.path.join(HERE, "refuse_growth.c"), "-ldl"], check=True)
        for what, files, line in COMMANDS:
            growths, no_memory, same, others = try_command(cmd, shim, files, line.split())
            wrong += len(others)
            print(f"| {what} | {growths} | {no_memory} | {same} | {len(others)} |", flush=True)
            for how, it in others[:3]:
                print(f"{what}: {how} gives {it}", file=sys.stderr)
    return 1 if wrong else 0


if __name__ == "__main__":
    sys.exit(main())

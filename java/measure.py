#!/usr/bin/env python3
"""Measures the front on five projects: fetches their Debian source packages, compiles each without and with the plugin, and prints
a table in Markdown.

    java/build.sh && java/measure.py [--folder DIR] [--rlc FILE] [PROJECT ..]
    java/test.sh && java/measure.py --seeds [--folder DIR] [--rlc FILE] [PROJECT ..]

The folder (default: /tmp/rlc-measure) keeps the sources, the lists of files, and each compiler's output. Sources that need libraries
that Debian does not have are left out; the table tells how many of how many files are compiled. With --seeds one leak is put before a
random statement of each method, and the table tells how many of them are reported at their lines, or have their bodies named.
"""

import argparse
import collections
import dataclasses
import datetime
import os
import pathlib
import re
import shutil
import subprocess
import sys
import time

HERE = pathlib.Path(__file__).resolve().parent
DEBIAN = "deb-src [signed-by=/usr/share/keyrings/debian-archive-keyring.gpg] http://deb.debian.org/debian {} main\n"
SUMMARY = re.compile(
    r"rlc: (\d+) bodies: (\d+) checked, (\d+) not checked, (\d+) suppressed; (\d+) obligations reported.*; ([\d.]+) seconds")
MOST_ROUNDS = 12
COLUMNS = ("project", "version", "files", "bodies", "not checked", "obligations reported", "`javac` alone, s (of processors)",
           "with the plugin, s (of processors)", "memory alone, MB", "with the plugin, MB")
SEEDS = ("project", "version", "leaks put in", "reported at their lines", "bodies named", "neither")


@dataclasses.dataclass(frozen=True)
class Project:
    """A Debian source package, its source folders, the packages of its class path, and whether it has generated sources."""

    package: str
    roots: tuple
    libraries: tuple = ()
    generated: bool = False


PROJECTS = {
    "commons-io": Project("commons-io", ("src/main/java",)),
    "commons-net": Project("libcommons-net-java", ("src/main/java",)),
    "commons-compress": Project(
        "libcommons-compress-java", ("src/main/java",), ("libxz-java", "libasm-java", "libosgi-core-java")),
    "ant": Project(
        "ant", ("src/main",),
        ("junit", "junit4", "junit5", "libactivation-java", "libbcel-java", "libbsf-java", "libcommons-logging-java",
         "libcommons-net-java", "libmail-java", "libjdepend-java", "libjsch-java", "liblog4j1.2-java", "liboro-java",
         "libregexp-java", "libxalan2-java", "libxml-commons-resolver1.1-java", "libxz-java")),
    "zookeeper": Project(
        "zookeeper", ("zookeeper-jute/src/main/java", "zookeeper-server/src/main/java", "generated"),
        ("javacc", "libcommons-cli-java", "libcommons-io-java", "libdropwizard-metrics-java", "libfindbugs-annotations-java",
         "libjackson2-core-java", "libjackson2-annotations-java", "libjackson2-databind-java", "libjline2-java",
         "liblogback-java", "libjetty9-java", "libjetty9-extra-java", "libnetty-java", "libservlet-api-java", "libslf4j-java", "libsnappy-java",
         "libbcprov-java", "libbcpkix-java"),
        True),
}


def say(text):
    """Tells what goes on."""
    print(f"{datetime.datetime.now():%H:%M:%S} {text}", file=sys.stderr, flush=True)


def run(words, **more):
    """Runs a program that must succeed."""
    return subprocess.run(words, check=True, stdin=subprocess.DEVNULL, **more)


def as_root():
    """The words before a command that installs packages."""
    return [] if os.geteuid() == 0 else ["sudo"]


def install(packages):
    """Installs the packages that are missing."""
    missing = []
    for package in packages:
        state = subprocess.run(["dpkg-query", "-W", "-f", "${Status}", package], capture_output=True, text=True, check=False)
        if "ok installed" not in state.stdout:
            missing.append(package)
    if missing:
        say("installs " + " ".join(missing))
        run([*as_root(), "env", "DEBIAN_FRONTEND=noninteractive", "apt-get", "install", "-y", "-qq",
             "--no-install-recommends", *missing], stdout=subprocess.DEVNULL, stderr=subprocess.DEVNULL)


def class_path(packages):
    """The jars of packages, each file once."""
    jars = {}
    for package in packages:
        listed = run(["dpkg", "-L", package], capture_output=True, text=True).stdout.split("\n")
        for name in listed:
            if name.startswith("/usr/share/java/") and name.endswith(".jar") and os.path.exists(name):
                jars.setdefault(os.path.realpath(name), name)
    return ":".join(sorted(jars))


def apt_words(folder):
    """The words of apt-get by which it uses source lists of this script alone, in a folder of its own."""
    home = folder / "apt"
    for name in ("lists/partial", "cache/archives/partial"):
        (home / name).mkdir(parents=True, exist_ok=True)
    release = re.search(r"VERSION_CODENAME=(\w+)", pathlib.Path("/etc/os-release").read_text()).group(1)
    (home / "sources.list").write_text(DEBIAN.format(release))
    options = {"Dir::Etc::sourcelist": home / "sources.list", "Dir::Etc::sourceparts": "-",
               "Dir::State::lists": home / "lists", "Dir::Cache": home / "cache", "APT::Sandbox::User": "root"}
    words = ["apt-get", "-qq"]
    for key, value in options.items():
        words += ["-o", f"{key}={value}"]
    return words


def fetch(folder, name):
    """The unpacked sources of a project, and the version of their package."""
    project = PROJECTS[name]
    target = folder / name
    version_file = target / "version"
    if not version_file.exists():
        install(["dpkg-dev"])
        words = apt_words(folder)
        if not list((folder / "apt/lists").glob("*_Sources*")):
            run([*words, "update"])
        say(f"fetches {name}")
        target.mkdir(exist_ok=True)
        run([*words, "source", project.package], cwd=target, stdout=subprocess.DEVNULL, stderr=subprocess.DEVNULL)
        description = next(target.glob("*.dsc"))
        version_file.write_text(re.search(r"(?m)^Version: (\S+)", description.read_text()).group(1))
    source = next(it for it in sorted(target.iterdir()) if (it / "debian").is_dir())
    return source, version_file.read_text()


def generate_zookeeper(source, classes):
    """What ZooKeeper's build generates: the parser of jute's language, the records, and the version (by zeros)."""
    out = source / "generated"
    if (out / "done").exists():
        return
    parser = out / "org/apache/jute/compiler/generated"
    parser.mkdir(parents=True, exist_ok=True)
    jute = source / "zookeeper-jute"
    run(["javacc", "-LOOKAHEAD=2", "-STATIC=false", f"-OUTPUT_DIRECTORY={parser}", str(next(jute.rglob("rcc.jj")))],
        stdout=subprocess.DEVNULL)
    tools = source / "tool-classes"
    tools.mkdir(exist_ok=True)
    sources = [*map(str, (jute / "src/main/java").rglob("*.java")), *map(str, parser.rglob("*.java"))]
    run(["javac", "-nowarn", "-proc:none", "-cp", classes or ".", "-d", str(tools), *sources],
        stdout=subprocess.DEVNULL, stderr=subprocess.DEVNULL)
    records = next((jute / "src/main").rglob("zookeeper.jute"))
    run(["java", "-cp", str(tools), "org.apache.jute.compiler.generated.Rcc", "-l", "java", str(records)], cwd=out,
        stdout=subprocess.DEVNULL)
    filtered = source / "zookeeper-server/src/main/java-filtered"
    for file in filtered.rglob("*.java"):
        target = out / file.relative_to(filtered)
        target.parent.mkdir(parents=True, exist_ok=True)
        target.write_text(re.sub(r"\$\{[^}]*\}", "0", file.read_text()))
    (out / "done").write_text("")


def timed(words, output):
    """Runs a program; its status, seconds on the clock and of processors, and the most memory of it and its children in MB."""
    start = time.monotonic()
    with open(output, "wb") as sink:
        process = subprocess.Popen(words, stdin=subprocess.DEVNULL, stdout=sink, stderr=subprocess.STDOUT)
        _, status, usage = os.wait4(process.pid, 0)
        process.returncode = os.waitstatus_to_exitcode(status)
    clock = time.monotonic() - start
    return process.returncode, clock, usage.ru_utime + usage.ru_stime, usage.ru_maxrss / 1024


def javac(folder, files, classes, more):
    """The words of a compilation."""
    listed = folder / "files"
    listed.write_text("".join(f'"{it}"\n' for it in files))
    out = folder / "classes"
    out.mkdir(exist_ok=True)
    return ["javac", "-nowarn", "-Xlint:none", "-encoding", "ISO-8859-1", "-implicit:none", "-sourcepath", "", "-Xmaxerrs",
            "100000", "-Xmaxwarns", "100000", "-d", str(out), "-cp", classes or ".", *more, f"@{listed}"]


def compilable(folder, source, project, classes):
    """All sources, and those that compile with the libraries that are there."""
    roots = [source / it for it in project.roots]
    every = sorted(str(it) for root in roots for it in root.rglob("*.java")
                   if it.name not in ("package-info.java", "module-info.java"))
    kept = folder / "compiled"
    if kept.exists():
        return every, kept.read_text().split("\n")
    files = every
    for _ in range(MOST_ROUNDS):
        output = folder / "output.compilable"
        status, *_ = timed(javac(folder, files, classes, ["-proc:none"]), output)
        if status == 0:
            kept.write_text("\n".join(files))
            return every, files
        wrong = set(re.findall(r"(?m)^(/\S+\.java):\d+: error", output.read_text(errors="replace")))
        if not wrong:
            break
        files = [it for it in files if it not in wrong]
        say(f"{folder.name}: {len(wrong)} files need what is not there")
    raise RuntimeError(f"{folder.name} does not compile: see {folder}/output.compilable")


def measure(folder, name, engine):
    """One project's row of the table, and the bodies that are not checked."""
    project = PROJECTS[name]
    install(project.libraries)
    source, version = fetch(folder, name)
    here = folder / name
    classes = class_path(project.libraries)
    if project.generated:
        generate_zookeeper(source, classes)
    every, files = compilable(here, source, project, classes)
    say(f"{name}: {len(files)} files, the compiler alone")
    status, clock, processor, memory = timed(javac(here, files, classes, ["-proc:none"]), here / "output.alone")
    if status != 0:
        raise RuntimeError(f"{name} does not compile: see {here}/output.alone")
    say(f"{name}: with the plugin")
    plugin = "-Xplugin:Rlc" + (f" rlc={engine}" if engine else "")
    words = javac(here, files, classes, ["-processorpath", str(HERE / "build/rlc-java.jar"), "-proc:none", plugin])
    status, with_clock, with_processor, with_memory = timed(words, here / "output.plugin")
    text = (here / "output.plugin").read_text(errors="replace")
    found = SUMMARY.search(text)
    if status != 0 or not found:
        return [name, version, f"{len(files)} of {len(every)}", f"no answer, status {status}: see {here}/output.plugin"], []
    bodies, _, not_checked, _, obligations, _ = found.groups()
    named = sorted(set(re.findall(r"\[rlc\] (.* is not checked: .*)", text)))
    row = [name, version, f"{len(files)} of {len(every)}", f"{int(bodies):,}", not_checked, obligations,
           f"{clock:.0f} ({processor:.0f})", f"{with_clock:.0f} ({with_processor:.0f})", f"{memory:.0f}", f"{with_memory:.0f}"]
    return row, named


def seeded(folder, name, engine):
    """One project's row of the table of seeded leaks, and the leaks that are neither reported nor named."""
    project = PROJECTS[name]
    install(project.libraries)
    source, version = fetch(folder, name)
    here = folder / name
    classes = class_path(project.libraries)
    if project.generated:
        generate_zookeeper(source, classes)
    _, files = compilable(here, source, project, classes)
    listed = here / "to-seed"
    listed.write_text("".join(f"{it}\n" for it in files))
    out = here / "seeded"
    shutil.rmtree(out, ignore_errors=True)
    say(f"{name}: puts leaks into {len(files)} files")
    lines = run(["java", "-cp", str(HERE / "build/tests"), "rlc.front.Seeds", str(listed), str(out)],
                capture_output=True, text=True).stdout.splitlines()
    # A constructor is named by its class.
    seeds = [(path, line, pathlib.Path(path).stem if method == "<init>" else method)
             for path, line, method in (it.rsplit(" ", 2) for it in lines)]
    changed = sorted(str(it) for it in out.rglob("*.java"))
    say(f"{name}: {len(seeds)} leaks, with the plugin")
    plugin = "-Xplugin:Rlc" + (f" rlc={engine}" if engine else "")
    words = javac(here, changed, classes, ["-processorpath", str(HERE / "build/rlc-java.jar"), "-proc:none", plugin])
    status, *_ = timed(words, here / "output.seeded")
    text = (here / "output.seeded").read_text(errors="replace")
    if status != 0 or not SUMMARY.search(text):
        return [name, version, str(len(seeds)), f"no answer, status {status}: see {here}/output.seeded"], []
    reported = collections.Counter(re.findall(r"(?m)^(\S+\.java:\d+): warning: \[rlc\] .*FileInputStream that is made here", text))
    named = {tuple(it) for it in re.findall(r"(?m)^(\S+\.java):\d+: warning: \[rlc\] (?:.*\.)?(\S+)\(.* is not checked: ", text)}
    met = [it for it in seeds if reported[f"{it[0]}:{it[1]}"]]
    left_out = [it for it in seeds if not reported[f"{it[0]}:{it[1]}"] and (it[0], it[2]) in named]
    lost = [it for it in seeds if it not in met and it not in left_out]
    return ([name, version, f"{len(seeds):,}", f"{len(met):,}", str(len(left_out)), str(len(lost))],
            [f"{it[0]}:{it[1]} in {it[2]}" for it in lost])


def version_of(words):
    """The first line that a program says of its version."""
    done = subprocess.run(words, capture_output=True, text=True, check=False)
    return (done.stdout + done.stderr).split("\n")[0]


def main():
    """Measures the projects that are named, or all."""
    parser = argparse.ArgumentParser(description=__doc__, formatter_class=argparse.RawDescriptionHelpFormatter)
    parser.add_argument("--folder", type=pathlib.Path, default=pathlib.Path("/tmp/rlc-measure"))
    parser.add_argument("--rlc", help="the program rlc, in place of the one in the jar")
    parser.add_argument("--seeds", action="store_true", help="seeded leaks in place of the table of the projects")
    parser.add_argument("projects", nargs="*", metavar="PROJECT", help=", ".join(PROJECTS))
    words = parser.parse_args()
    unknown = [it for it in words.projects if it not in PROJECTS]
    if unknown:
        parser.error("unknown project " + " ".join(unknown))
    if not (HERE / "build/rlc-java.jar").exists():
        parser.error("java/build.sh has not run")
    words.folder.mkdir(parents=True, exist_ok=True)
    folder = words.folder.resolve()
    load = os.getloadavg()[0]
    print(f"Measured {datetime.date.today():%Y-%m-%d}, {version_of(['javac', '-version'])}, "
          f"{os.cpu_count()} processors (load {load:.0f} at the start), Debian's source packages.\n")
    table = SEEDS if words.seeds else COLUMNS
    print("| " + " | ".join(table) + " |\n|" + "---|" * len(table), flush=True)
    more = {}
    failed = False
    for name in words.projects or PROJECTS:
        try:
            row, more[name] = (seeded if words.seeds else measure)(folder, name, words.rlc)
            failed |= len(row) < len(table) or words.seeds and bool(more[name])
            print("| " + " | ".join(row) + " |", flush=True)
        except (RuntimeError, subprocess.CalledProcessError, StopIteration) as error:
            failed = True
            print(f"| {name} | not measured: {error} |", flush=True)
    print("\nNeither reported nor named:\n" if words.seeds else "\nNot checked:\n")
    for name, lines in more.items():
        for line in lines:
            print(f"- {name}: {line}")
    return 1 if failed else 0


if __name__ == "__main__":
    sys.exit(main())

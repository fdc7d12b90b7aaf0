#!/usr/bin/env bash
# Compares rlc with javac and a Java machine on random programs: witness/run.sh [--programs N] [--seed K] [--rlc PATH] [--only KIND]
# It needs Python 3 and a JDK 17, and downloads nothing. Without --rlc it takes the program that `rt ci` built.
set -e
here="$(cd "$(dirname "$0")" && pwd)"
classes="$(mktemp -d)"
trap 'rm -rf "$classes"' EXIT
javac -Xlint:all -Werror --add-exports jdk.compiler/com.sun.tools.javac.api=ALL-UNNAMED -d "$classes" "$here"/java/witness/*.java
rlc="$here/../crates/rlc/out/rlc"
python3 "$here/harness/witness.py" --classes "$classes" --rlc "$rlc" "$@"

#!/usr/bin/env bash
# Builds the front and runs its tests; the last line is "N passed, N failed", and the status is 0 where none failed.
# The program rlc is the one that build.sh finds; the tests need it.
set -uo pipefail
cd "$(dirname "$0")"
# Sources and names of files are UTF-8, whatever the machine says.
export LC_ALL=C.UTF-8
# The tests of builds run Maven and Make.
./install.sh maven make libmaven-compiler-plugin-java libmaven-resources-plugin-java || exit 2
./build.sh || exit 2
engine=build/engine/rlc
if [ ! -x "$engine" ]; then
  echo "java/test.sh: there is no program rlc to test with; rt ci builds one, or set RLC" >&2
  echo "0 passed, 1 failed"
  exit 1
fi
jars=$(printf '%s:' /usr/share/java/junit-jupiter-api.jar /usr/share/java/junit-jupiter-engine.jar \
  /usr/share/java/junit-jupiter-params.jar /usr/share/java/junit-platform-*.jar /usr/share/java/opentest4j.jar \
  /usr/share/java/apiguardian-api.jar /usr/share/java/univocity-parsers.jar /usr/share/java/picocli.jar)
rm -rf build/tests && mkdir -p build/tests
find src/test/java -name '*.java' > build/test-sources
javac --release 17 -encoding UTF-8 -Xlint:all,-processing,-try,-path -cp "build/jar:$jars" -d build/tests @build/test-sources || exit 2
RLC_ENGINE=$(readlink -f "$engine") RLC_FRONT=$(readlink -f build) \
  java -XX:+UseSerialGC -cp "build/tests:build/jar:$jars" org.junit.platform.console.ConsoleLauncher \
  ${CLASSES:---scan-classpath build/tests} --disable-banner --details=summary --disable-ansi-colors "$@" > build/test-log 2>&1
status=$?
passed=$(sed -n 's/^\[ *\([0-9]*\) tests successful.*/\1/p' build/test-log)
failed=$(sed -n 's/^\[ *\([0-9]*\) tests failed.*/\1/p' build/test-log)
if [ "$status" -ne 0 ] || [ -z "$passed" ]; then
  grep -v '^$' build/test-log | head -200
fi
echo "${passed:-0} passed, ${failed:-1} failed"
[ "$status" -eq 0 ] && [ "${passed:-0}" -gt 0 ]

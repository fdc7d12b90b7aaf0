#!/usr/bin/env bash
# Builds build/rlc-java.jar (the plugin and the command) and build/rlc-java (a script that runs the command).
# The program rlc that goes into the jar, and stands in build/engine: $RLC if that is set, else the one that the gate (rt ci) leaves in
# crates/rlc/out.
set -euo pipefail
cd "$(dirname "$0")"
# Sources and names of files are UTF-8, whatever the machine says.
export LC_ALL=C.UTF-8
./install.sh
picocli=/usr/share/java/picocli.jar

engine=${RLC:-../crates/rlc/out/rlc}

rm -rf build/classes build/jar build/engine
mkdir -p build/classes build/jar build/engine
find src/main/java -name '*.java' > build/sources
javac --release 17 -encoding UTF-8 -Xlint:all,-processing,-try -Werror -cp "$picocli" -d build/classes @build/sources
cp -r build/classes/. src/main/resources/. build/jar/

# The stubs of the repository ($STUBS in their place) are one source for rlc and the front.
mkdir -p build/jar/rlc/stubs
for stub in "${STUBS:-../stubs}"/*.astub; do
  [ -e "$stub" ] || continue
  cp "$stub" build/jar/rlc/stubs/
  basename "$stub" >> build/jar/rlc/stubs/index
done

if [ -f "$engine" ]; then
  install -m 755 "$engine" build/engine/rlc
  mkdir -p build/jar/rlc/engine
  cp build/engine/rlc build/jar/rlc/engine/rlc
else
  echo "java/build.sh: no program rlc at $engine: the jar is built without it (rlc=PATH names one at run time)" >&2
fi

# picocli goes into the jar, so that one file is all there is.
(cd build/jar && jar xf "$picocli" picocli)
printf 'Main-Class: rlc.front.plugin.Command\n' > build/manifest
jar cfm build/rlc-java.jar build/manifest -C build/jar .

cat > build/rlc-java <<'RUN'
#!/bin/sh
# rlc-java [options] [options of javac] FILES
exec java -XX:+UseSerialGC -XX:TieredStopAtLevel=1 -jar "$(dirname "$(readlink -f "$0")")/rlc-java.jar" "$@"
RUN
chmod +x build/rlc-java

#!/usr/bin/env bash
# Compiles the companion, and with `test` runs its tests.
#
# usage: java/build.sh         compiles into java/out
#        java/build.sh test    compiles, and runs the tests; TESTS may be a pattern of their classes
#
# It needs Java 17 and Debian's packages of ASM, picocli, Jackson and, for the tests, JUnit 5, whose jars are looked for in /usr/share/java, or where JARS
# says. Where one isn't there its package is named, with status 3; with CI set it is installed first by apt-get. The tests ask the program that BOOMER names,
# else the one that ./boomer has made. What goes on is said on standard error, the result on standard output, and all of it stays in java/out/tests.log.
set -euo pipefail
top=$(cd "$(dirname "${BASH_SOURCE[0]}")" && pwd)
out=$top/out
export JARS=${JARS:-/usr/share/java}

# Each package that is needed, with those of its jars that are.
for_main='libasm-java asm asm-tree asm-analysis asm-commons
libpicocli-java picocli
libjackson2-databind-java jackson-databind
libjackson2-core-java jackson-core
libjackson2-annotations-java jackson-annotations'
for_tests='junit5 junit-jupiter-api junit-jupiter-engine junit-jupiter-params junit-platform-commons junit-platform-engine junit-platform-launcher junit-platform-console junit-platform-reporting
libopentest4j-java opentest4j
libopentest4j-reporting-java opentest4j-reporting-events opentest4j-reporting-schema
libapiguardian-java apiguardian-api'
needed=$for_main
if [ "${1:-}" = test ]; then needed=$for_main$'\n'$for_tests; fi

say() {
  printf 'java/build.sh: %s\n' "$*" >&2
}

# ---- What is needed

# Whether there is a compiler for Java 17.
has_javac() {
  local version
  version=$(javac -version 2>&1) || return 1
  version=${version#javac }
  [ "${version%%.*}" -ge 17 ] 2> /dev/null
}

# The packages that aren't there, in one line.
missing() {
  local package jars jar all=()
  has_javac || all+=(openjdk-17-jdk-headless)
  while read -r package jars; do
    for jar in $jars; do
      if [ ! -e "$JARS/$jar.jar" ]; then
        all+=("$package")
        break
      fi
    done
  done <<< "$needed"
  echo "${all[*]}"
}

# Installs packages. A mirror may fail for a moment, so it is tried three times.
install() {
  local try as_root=(env DEBIAN_FRONTEND=noninteractive timeout 240 apt-get -qq -o DPkg::Lock::Timeout=60)
  if [ "$(id -u)" -ne 0 ]; then as_root=(sudo -n "${as_root[@]}"); fi
  for try in 1 2 3; do
    say "installs $* (try $try of 3)"
    if { "${as_root[@]}" update && "${as_root[@]}" install -y --no-install-recommends "$@"; } > "$out/apt.log" 2>&1; then return; fi
    tail -n 5 "$out/apt.log" >&2
    if [ "$try" -lt 3 ]; then sleep $((try * 5)); fi
  done
}

mkdir -p "$out"
lacks=$(missing)
if [ -n "$lacks" ] && [ -n "${CI:-}" ]; then
  # shellcheck disable=SC2086
  install $lacks
  lacks=$(missing)
fi
if [ -n "$lacks" ]; then
  say "these Debian packages are missing: $lacks"
  exit 3
fi

# The jars of packages, as a path.
path() {
  local package jars jar all=()
  while read -r package jars; do
    for jar in $jars; do all+=("$JARS/$jar.jar"); done
  done <<< "$1"
  local IFS=:
  echo "${all[*]}"
}

libraries=$(path "$for_main")
printf '%s\n' "$libraries" > "$out/libraries"

# ---- Compiling

# Whether the folder of classes is older than a source.
is_old() {
  [ ! -e "$1/.done" ] || [ -n "$(find "${@:2}" "$top/build.sh" -newer "$1/.done" -print -quit)" ]
}

# Begins to compile the sources below a folder into a folder of classes: compile TO FROM OPTION..
works=()
compile() {
  compile_now "$@" &
  works+=($!)
}

# Waits for all that is being compiled.
finish() {
  local work
  for work in "${works[@]}"; do wait "$work" || exit; done
  works=()
}

compile_now() {
  local to=$1 from=$2
  say "compiles java/${from#"$top/"}"
  rm -rf "$to"
  mkdir -p "$to"
  find "$from" -name '*.java' -print0 | LC_ALL=C sort -z | xargs -0 javac -encoding UTF-8 -Xlint:all,-processing,-path -d "$to" "${@:3}"
  touch "$to/.done"
}

if is_old "$out/main" "$top/src/main"; then compile "$out/main" "$top/src/main/java" --release 17 -cp "$libraries"; fi
if is_old "$out/stubs" "$top/stubs"; then
  compile "$out/stubs" "$top/stubs" --patch-module "java.base=$top/stubs" -g -XDstringConcat=inline -Xlint:none
fi
if [ "${1:-}" != test ]; then
  finish
  exit 0
fi

for folder in "$top"/programs/*/; do
  folder=${folder%/}
  to=$out/programs/${folder##*/}
  if is_old "$to" "$folder"; then compile "$to" "$folder" --release 17 -g -Xlint:none; fi
done
finish
classes=$out/main:$out/test:$libraries:$(path "$for_tests")
if is_old "$out/test" "$top/src/test" "$top/src/main"; then
  compile "$out/test" "$top/src/test/java" --release 17 -cp "$classes"
  finish
  cp -r "$top/src/test/resources/." "$out/test/"
fi

# ---- The tests

say 'runs the tests'
status=0
cd "$top"
BOOMER_JAVA=$top java -cp "$classes" org.junit.platform.console.ConsoleLauncher --disable-banner --fail-if-no-tests --details summary \
  --config junit.jupiter.extensions.autodetection.enabled=true --config junit.jupiter.execution.timeout.default=20m \
  --scan-classpath "$out/test" --include-classname "${TESTS:-.*Test}" > "$out/tests.log" || status=$?
cat "$out/tests.log"
passed=$(sed -nE 's/^\[ +([0-9]+) tests successful .*/\1/p' "$out/tests.log")
failed=$(sed -nE 's/^\[ +([0-9]+) tests failed .*/\1/p' "$out/tests.log")
echo "${passed:-0} passed, ${failed:-1} failed"
exit "$status"

# Building and starting programs, C programs that link libkiosk.a and those of the repository; other scripts source this file from the repository's root.
#   archive                 has rt prove kiosk and write crates/kiosk/out/libkiosk.a, once for all scripts that one of them starts
#   program NAME            has rt prove the program NAME and write crates/NAME/out/NAME; with PROGRAMS=ready the one that is there is taken
#   link OUT FILE.c..       builds the C program OUT from C files and the archive
#   launch OUT ARG..        starts either kind
# What rt proves anew is told on standard error, crate by crate. On x86-64 with a C compiler that compiler is used. Elsewhere, or with KIT=1, the
# toolchain's own: its clang has no headers, so compare/plain stands in for the two that are used. Every program is for x86-64: with KIT=1 it starts under
# the toolchain's loader, and on another processor under this loader and an emulator, qemu-x86_64, the toolchain's if it has one, else the machine's.

# proving FOLDER LOG WORD..: what `rt WORD..` says in that folder goes to LOG, and each crate that it proves is told.
proving() {
  local folder=$1 log=$2
  shift 2
  (cd "$folder" && rt "$@") </dev/null 2>&1 | tee "$log" | sed -u -n 's/^rt: chose --jobs [0-9]* for \([a-z_]*\)$/proving \1/p' >&2
  return "${PIPESTATUS[0]}"
}

archive() {
  local log
  if [ "${ARCHIVE:-}" = ready ]; then
    return
  fi
  log=$(mktemp)
  if ! proving crates/kiosk "$log" lib; then
    tail -n 20 "$log" >&2
    rm -f "$log"
    return 1
  fi
  rm -f "$log"
  export ARCHIVE=ready
}

# rt has no command that builds a program and does not start it, so it is started once, with nothing on its standard input.
program() {
  local name=$1 log
  if [ "${PROGRAMS:-}" = ready ] && [ -x "crates/$name/out/$name" ]; then
    return
  fi
  if ! [ -f "crates/$name/src/main.rt" ]; then
    echo "crates/ has no program $name" >&2
    return 1
  fi
  log=$(mktemp)
  proving "crates/$name" "$log" run || true
  if ! grep -aq "^rt: running out/$name;" "$log"; then
    tail -n 20 "$log" >&2
    rm -f "$log"
    return 1
  fi
  rm -f "$log"
}

native() {
  [ "$(uname -m)" = x86_64 ] && [ "${KIT:-0}" = 0 ] && command -v cc >/dev/null
}

kit() {
  dirname "$(rt doc)"
}

link() {
  local out=$1
  shift
  mkdir -p "$(dirname "$out")"
  if native; then
    cc -O2 -Wall -Wextra -Iinclude -o "$out" "$@" crates/kiosk/out/libkiosk.a
    return
  fi
  local own work file target=x86_64-unknown-linux-gnu made=() status=0
  own=$(kit)
  work=$(mktemp -d)
  for file in "$@"; do
    made+=("$work/$(basename "$file" .c).o")
    "$own/toolchain/bin/clang" -target "$target" -O2 -fPIC -Iinclude -Icompare/plain -c "$file" -o "${made[-1]}" || status=1
  done
  if [ "$status" = 0 ]; then
    "$own/bin/rattle-link" --target "$target" --toolchain "$own/toolchain" -o "$out" "${made[@]}" crates/kiosk/out/libkiosk.a 2>"$work/said" || status=1
  fi
  [ ! -s "$work/said" ] || [ "$status" = 0 ] || cat "$work/said" >&2
  rm -rf "$work"
  return "$status"
}

launch() {
  local out=$1 lib emulator=
  shift
  if native; then
    "$out" "$@"
    return
  fi
  lib=$(kit)/toolchain/lib
  if [ "$(uname -m)" != x86_64 ]; then
    emulator=$(command -v "${lib%/lib}/bin/qemu-x86_64" qemu-x86_64 qemu-x86_64-static | head -n 1) || true
    # With no emulator by name, the machine may still start programs of another processor by itself.
    if [ -z "$emulator" ] && ! "$lib/ld-linux-x86-64.so.2" --version >/dev/null 2>&1; then
      echo "$out is for x86-64, and this machine has no qemu-x86_64 to start it under: it is in Debian's package qemu-user" >&2
      return 1
    fi
  fi
  ${emulator:+"$emulator"} "$lib/ld-linux-x86-64.so.2" --library-path "$lib" "$out" "$@"
}

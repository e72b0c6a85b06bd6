#!/bin/bash
# Tries programs of users. The first two lines of a file .ci/refused/NAME.rt.txt name the expected error
# of a program that must not compile, and the crates that it needs. A folder .ci/compiled/NAME has the
# files of a program that must compile; main.rt.txt begins with such lines. The crates are copied with
# all that they need, and `rt try` compiles the program. Nothing is proved.
set -euo pipefail
top=$(cd "$(dirname "$0")/.." && pwd)
rt=${RT:-rt}
failed=0
folder=$(mktemp -d)
trap 'rm -rf "$folder"' EXIT

# Copies a crate of this repository and the crates that it needs, with their lines of crates.txt. The
# toolchain's crates are not copied.
copy_crate() {
  local crate=$1 line part below
  [ ! -d "$folder/crates/$crate" ] || return 0
  line=$(grep -E "^$crate( [a-z_=]+)*:" "$top/crates.txt") || return 0
  echo "$line" >> "$folder/crates.txt"
  mkdir "$folder/crates/$crate"
  for part in src specs proofs; do
    [ ! -d "$top/crates/$crate/$part" ] || cp -r "$top/crates/$crate/$part" "$folder/crates/$crate/"
  done
  for below in ${line#*:}; do
    copy_crate "$below"
  done
}

# Compiles and runs the program of these files, the first of which is its main, and writes what `rt try`
# prints to $folder/log.
try_program() {
  local main=$1 needed crate
  shift
  needed=$(sed -n 's|^// crates: ||p' "$main")
  rm -rf "$folder"
  mkdir -p "$folder/crates/program/src"
  echo "program: $needed" > "$folder/crates.txt"
  for crate in $needed; do
    copy_crate "$crate"
  done
  cp "$top/HANDLES" "$folder/HANDLES"
  tail -n +3 "$main" > "$folder/crates/program/src/main.rt"
  for file in "$@"; do
    cp "$file" "$folder/crates/program/src/$(basename "$file" .txt)"
  done
  (cd "$folder/crates/program" && $rt try) > "$folder/log" 2>&1
}

for main in "$top"/.ci/compiled/*/main.rt.txt; do
  name=$(basename "$(dirname "$main")")
  mapfile -t others < <(find "$(dirname "$main")" -name '*.rt.txt' ! -name main.rt.txt)
  if try_program "$main" "${others[@]}"; then
    echo "must compile: $name compiles"
  else
    echo "must compile: $name fails:"
    tail -n 20 "$folder/log"
    failed=1
  fi
done
for program in "$top"/.ci/refused/*.rt.txt; do
  name=$(basename "$program" .rt.txt)
  wanted=$(sed -n 's|^// error: ||p' "$program")
  if try_program "$program"; then
    echo "must not compile: $name compiles"
    failed=1
  elif grep -qF "error[$wanted]" "$folder/log"; then
    echo "must not compile: $name: error[$wanted]"
  else
    echo "must not compile: $name has another error than error[$wanted]:"
    tail -n 20 "$folder/log"
    failed=1
  fi
done
exit $failed

# shellcheck shell=bash
# What `compare` and `triples` share; read by both. It builds the two sides and gives one trace to
# each: to the Rust (the program `trace` of this folder) and to the proved library (the program
# `replay`).
#
# Environment:
#   ZMIDI_SRC  the folder of the upstream sources (see README.md)
#   RT         the toolchain command, by default rt; `rt run` in its folder builds `replay`
#   REPLAY     an executable to run in place of `replay`; then nothing is built by the toolchain

here=$(cd "$(dirname "${BASH_SOURCE[0]}")" && pwd)
root=$(dirname "$here")
bin=$here/target/release
replay=${REPLAY:-$root/crates/replay/out/replay}

# Says how the script is called, by its own first lines.
usage() {
  sed -n 's/^#   oracle/oracle/p' "$0" >&2
  exit 2
}

# Is each word a number?
are_numbers() {
  local word
  for word in "$@"; do
    [[ $word =~ ^[0-9]+$ ]] || return 1
  done
}

# Makes the folder $work for as long as the script runs, and builds both sides.
build() {
  work=$(mktemp -d) || exit 2
  trap 'rm -rf "$work"' EXIT
  cargo build --release --offline --quiet --manifest-path "$here/Cargo.toml" \
    --target-dir "$here/target" || exit 2
  if [[ -z ${REPLAY:-} ]]; then
    (cd "$root/crates/replay" && "${RT:-rt}" run </dev/null) >"$work/build" 2>&1 || {
      cat "$work/build" >&2
      exit 2
    }
  fi
  if [[ ! -x $replay ]]; then
    echo "there is no executable $replay" >&2
    exit 2
  fi
}

# The number of the first line in which two files differ; nothing if they are equal.
first_difference() {
  cmp -s "$1" "$2" && return
  awk -v other="$2" '
    { if ((getline line < other) <= 0 || $0 "" != line "") { found = 1; print NR; exit } }
    END { if (!found) print NR + 1 }' "$1"
}

# Line $1 of standard input.
line_of() {
  local line
  line=$(awk -v wanted="$1" 'NR == wanted')
  echo "${line:-(no answer)}"
}

# How many answers the Rust gave to the trace.
answers() {
  wc -l <"$work/rust"
}

# Runs the trace in $work/trace, of one item a line and of lines of comment, through both sides.
# Says where they differ, if they do, and leaves the number of that item in $differs; $1 says which
# trace it is.
run_both() {
  local rust=0 ours=0
  "$bin/trace" <"$work/trace" >"$work/rust" || rust=$?
  "$replay" <"$work/trace" >"$work/ours" || ours=$?
  differs=$(first_difference "$work/rust" "$work/ours")
  [[ -z $differs && $rust == 0 && $ours == 0 ]] && return
  if [[ -n $differs ]]; then
    echo "$1: item $differs differs (one item a line, and it may rest on those before it)"
    echo "  item:   $(grep -v '^#' "$work/trace" | line_of "$differs")"
    echo "  Rust:   $(line_of "$differs" <"$work/rust")"
    echo "  replay: $(line_of "$differs" <"$work/ours")"
  else
    echo "$1: $(answers) answers equal, but a program failed"
  fi
  echo "  exit status: Rust $rust, replay $ours"
  return 1
}

#!/usr/bin/env bash
# The type printer on document 01's example, a season on one screen, a refused card with what the engine suggests, the yard's graph published
# for a second station, then a season by willet from text, Turtle and HTTP, all by the proved code.
# What is missing is proved and built first; each crate is told as it is proved, with its time.
set -euo pipefail
cd "$(dirname "$0")/.."
export PATH="$HOME/.cargo/bin:$PATH"

# made FILE MINUTES WHAT COMMAND..: makes FILE where it is not there, and says how long that took
made() {
  local file=$1 minutes=$2 what=$3 began=$SECONDS
  shift 3
  if [ -e "$file" ]; then
    echo "$what: there already ($file)"
    return
  fi
  echo "$what: proving, about $minutes minutes on two cores; a line for each crate that is proved"
  "$@" 2>&1 | grep --line-buffered -E '^rt:|error'
  echo "$what: proved and built in $((SECONDS - began)) s"
}

made target/bin/print_types 3 'the type printer' bash tools/build.sh print_types
made target/staticlib/libexports.a 6 'the engine' bash tools/build.sh archive
echo "the panel: building"
cargo build --offline --quiet --release --manifest-path host/Cargo.toml -p panel
echo
echo "the type printer:"
target/bin/print_types < crates/print_types/stdin
echo
echo "a season:"
cargo run --offline --quiet --release --manifest-path host/Cargo.toml -p panel
echo
bash tools/season.sh

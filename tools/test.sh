#!/usr/bin/env bash
# The gate: every crate proved from nothing, must-fail edits refused, programs compared; then the Rust side and the C library.
# Prints the sum as its last line, 'N passed, M failed', and fails where anything did.
set -uo pipefail
cd "$(dirname "$0")/.."
export PATH="$HOME/.cargo/bin:$PATH"
log=$(mktemp -d)
trap 'rm -rf "$log"' EXIT
passed=0 failed=0

# counts NAME LOG STATUS: adds up every 'N passed, M failed' and 'N passed; M failed' of a log; a failed command counts as one at least
counts() {
  local p f
  p=$(grep -oE '[0-9]+ passed[,;]' "$2" | awk '{s += $1} END {print s + 0}')
  f=$(grep -oE '[0-9]+ failed' "$2" | awk '{s += $1} END {print s + 0}')
  [ "$3" -eq 0 ] || [ "$f" -gt 0 ] || f=1
  passed=$((passed + p)) failed=$((failed + f))
  echo "== $1: $p passed, $f failed ($((SECONDS - began)) s)"
}

part() {
  local name=$1
  shift
  began=$SECONDS
  echo "== $name"
  "$@" 2>&1 | tee "$log/part"
  counts "$name" "$log/part" "${PIPESTATUS[0]}"
}

part 'rt ci' rt ci
# an edit that cannot be applied shows nothing of a contract
if grep -qE '^rt: ok.*, [0-9]+ bad' "$log/part"; then failed=$((failed + 1)); echo "FAILED: a must-fail edit is bad"; fi
# check NAME COMMAND: a part that has no count of its own counts as one
check() {
  local name=$1
  shift
  began=$SECONDS
  echo "== $name"
  if "$@"; then passed=$((passed + 1)); else failed=$((failed + 1)); echo "FAILED: $name"; fi
  echo "== $name: done ($((SECONDS - began)) s)"
}

host() { (cd host && "$@"); }
# the programs as `rt ci` has just built and run them
programs() { mkdir -p target/bin && cp crates/print_types/out/print_types crates/evaluate/out/evaluate target/bin/; }
check 'the archive' bash tools/build.sh archive
check 'the programs' programs
check 'cargo fmt' host cargo fmt --check
check 'cargo clippy' host cargo clippy --offline --quiet --all-targets -- -D warnings
part 'cargo test, with the doc examples' host cargo test --offline --quiet
check 'cargo doc' host env RUSTDOCFLAGS=-Dwarnings cargo doc --offline --quiet --no-deps
part "the owner's tools" bash tools/owner.sh
check 'the C example' bash tools/c_example.sh gcc -std=c99
if command -v g++ >/dev/null; then
  check 'the C example as C++' bash tools/c_example.sh g++ -std=c++11 -x c++
else
  echo "== the C example as C++: left out, there is no g++ here"
fi
check 'the comparison' host cargo run --offline --quiet --release -p compare -- --cases 50000 --numbers 20000 --schemas 20000 --seed 1 --printer ../target/bin/print_types --printer-every 50 \
  --evaluator ../target/bin/evaluate --evaluator-every 20

echo "== the whole gate took $SECONDS s"
echo "$passed passed, $failed failed"
[ "$failed" -eq 0 ]

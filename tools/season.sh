#!/usr/bin/env bash
# A season by willet, from text, Turtle and HTTP on loopback: a script is checked, a slip is told, a club is opened, the script runs over
# its page and waits, the club rewrites the page, and the script ends; then what it knows of the yard is published. The engine's archive has to be there (`tools/build.sh archive`).
set -euo pipefail
cd "$(dirname "$0")/.."
export PATH="$HOME/.cargo/bin:$PATH"
echo "willet: building"
bash tools/owner.sh build
willet=$PWD/owner/target/debug/willet
season=$(mktemp -d)
cp -r owner/examples/season/. "$season"
cd "$season"
club=
trap '[ -z "$club" ] || kill "$club"; rm -rf "$season"' EXIT

# waits_for FILE WORD: until a line of a file begins with a word, for ten seconds at most
waits_for() {
  for _ in $(seq 100); do
    if grep -q "^$2" "$1"; then return; fi
    sleep 0.1
  done
  echo "$1 never says '$2'" >&2
  return 1
}

say() { printf '\n$ %s\n' "$*"; }

say cat yard.page
cat yard.page
say willet check yard.page
"$willet" check yard.page
say willet check mistake.page
"$willet" check mistake.page 2>&1 || true
say cat pages/yard.ttl
cat pages/yard.ttl
say willet club pages
"$willet" club pages > club.log &
club=$!
waits_for club.log http
address=$(head -1 club.log)
echo "$address"
say "willet run yard.page --fetch --map http://club.example/=$address --watch"
"$willet" run yard.page --fetch --map "http://club.example/=$address" --now 2026-03-01T12:00:00Z --watch --every 0.5 2> run.log > roster.txt &
run=$!
waits_for run.log waiting
mv later/yard.ttl pages/yard.ttl
wait "$run"
cat run.log roster.txt
say "willet publish yard.page --fetch --map http://club.example/=$address -o published.ttl"
"$willet" publish yard.page --fetch --map "http://club.example/=$address" --now 2026-03-01T12:00:00Z -q -o published.ttl
say cat published.ttl
cat published.ttl

#!/usr/bin/env bash
# build.sh NAME..: writes the proved engine's archive (`archive`: target/staticlib/libexports.a) and proved programs (`print_types`, `evaluate`:
# target/bin/NAME). What is not proved yet on this machine is proved first.
set -euo pipefail
cd "$(dirname "$0")/.."
mkdir -p target/staticlib target/bin
for name in "$@"; do
  if [ "$name" = archive ]; then
    (cd crates/exports_c && rt lib)
    cp crates/exports_c/out/libexports_c.a target/staticlib/libexports.a
  else
    (cd "crates/$name" && rt run <stdin | cmp - stdout)
    cp "crates/$name/out/$name" "target/bin/$name"
  fi
done

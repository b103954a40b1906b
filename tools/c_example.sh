#!/usr/bin/env bash
# c_example.sh COMPILER WORDS..: installs the C library below a new folder, compiles examples/panel.c against it, runs the program
# and compares what it prints with examples/panel.expected; does the same with tools/ranks.c, tools/texts.c and tools/publish.c, which try
# ranks, long texts and published graphs and print nothing; and sees that the library calls what the header says, and nothing else.
set -euo pipefail
cd "$(dirname "$0")/.."
place=$(mktemp -d)
trap 'rm -rf "$place"' EXIT
make --no-print-directory -s install PREFIX="$place"
[ "$(nm -u "$place/lib/libwilletcoffer.a" | awk '$1 == "U" {print $2}' | sort -u | tr '\n' ' ')" = 'memcpy memset ' ]
if command -v pkg-config >/dev/null; then
  read -r -a flags <<<"$(PKG_CONFIG_PATH="$place/lib/pkgconfig" pkg-config --cflags --libs willetcoffer)"
else
  flags=(-I"$place/include" -L"$place/lib" -lwilletcoffer)
fi
"$@" -Wall -Wextra -Wpedantic -Werror examples/panel.c -x none "${flags[@]}" -o "$place/panel"
"$place/panel" | diff - examples/panel.expected
for trial in ranks texts publish; do
  "$@" -Wall -Wextra -Wpedantic -Werror "tools/$trial.c" -x none "${flags[@]}" -o "$place/$trial"
  "$place/$trial"
done

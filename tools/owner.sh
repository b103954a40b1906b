#!/usr/bin/env bash
# The owner's tools (owner/): installs the Debian packages that they build on where they are missing, then checks and tests them
# offline. `tools/owner.sh build` only installs and builds. The proved engine's archive has to be there (`tools/build.sh archive`),
# or be named by WILLETCOFFER_ARCHIVE.
set -euo pipefail
cd "$(dirname "$0")/.."
export PATH="$HOME/.cargo/bin:$PATH"

# crates of Debian's folder, libraptor2 with its header, and rapper, which the tests compare with; owner/README.md says what each is for
packages=(
  librust-chrono-dev librust-clap-dev librust-codespan-reporting-dev librust-crossterm-dev librust-csv-dev librust-indicatif-dev
  librust-insta-dev librust-native-tls-dev librust-pkg-config-dev librust-serde-json-dev librust-tempfile-dev librust-tiny-http-dev
  librust-tui-dev librust-ureq-dev libraptor2-dev raptor2-utils pkg-config openssl
)
missing=()
for package in "${packages[@]}"; do
  dpkg-query -W -f='${Status}' "$package" 2>/dev/null | grep -q 'ok installed' || missing+=("$package")
done
if [ ${#missing[@]} -gt 0 ]; then
  echo "installing from Debian: ${missing[*]}"
  export DEBIAN_FRONTEND=noninteractive
  if ! { apt-get update -qq && apt-get install -y -qq --no-install-recommends "${missing[@]}" >/dev/null; }; then
    echo "these Debian packages are missing, and apt-get cannot install them here: ${missing[*]}" >&2
    exit 1
  fi
fi

cd owner
if [ "${1:-}" = build ]; then
  exec cargo build --offline --quiet
fi
cargo fmt --check
cargo clippy --offline --quiet --all-targets -- -D warnings
RUSTDOCFLAGS=-Dwarnings cargo doc --offline --quiet --no-deps
# no snapshot is written here: one that differs fails
INSTA_UPDATE=no cargo test --offline --quiet

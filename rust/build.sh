#!/usr/bin/env bash
# Proves and builds the static library, looks for late stack probes in it (docs/TRUST.md), then builds and tests the safe crate over it and the program `locustkeno`.
set -eu
cd "$(dirname "$0")"
../tools/library
cargo build -j1 --offline --release -p locustkeno -p cli
cargo test -j1 --offline --release -p locustkeno -p cli

#!/usr/bin/env bash
# Proves and builds the library, and measures it against two programs without proofs:
# times as ratios, then instructions a tick.
set -euo pipefail
shopt -s inherit_errexit
cd "$(dirname "$0")"

GROOVEPAWN_LIB=$(../tools/cross-library.sh native)
export GROOVEPAWN_LIB
cargo run --release --offline --features library
./instructions.sh

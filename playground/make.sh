#!/usr/bin/env bash
# Makes the page: the library for WebAssembly, of the module of the proved build, and then one HTML file of it and of the sources.
set -euo pipefail
shopt -s inherit_errexit
cd "$(dirname "$0")/.."

archive=$(tools/cross-library.sh wasm32 | tail -n 1)
python3 playground/make.py "$(dirname "$archive")/groovepawn.wasm" target/playground/groovepawn.html

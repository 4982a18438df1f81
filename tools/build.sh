#!/usr/bin/env bash
# Proves and builds what is named, and puts it where the pages and the other tools look for it:
#
#     tools/build.sh groovepawn        the library for a controller in C, target/staticlib/libgroovepawn.a
#     tools/build.sh enforce wave      proved programs, target/bin/enforce and target/bin/wave
#
# What the check of each says is left in target/log.
set -euo pipefail
cd "$(dirname "$0")/.."

# Proves and builds in the crate's folder, by the rest of the words.
prove() {
    local crate=$1 log=target/log/$1.out
    shift
    mkdir -p target/log
    if ! (cd "crates/$crate" && "$@" </dev/null) >"$log" 2>&1; then
        cat "$log" >&2
        echo "build: $crate is not proved and built" >&2
        exit 1
    fi
}

for name in "$@"; do
    if [[ $name == groovepawn ]]; then
        prove groovepawn_c rt lib
        install -Dm 644 crates/groovepawn_c/out/libgroovepawn_c.a target/staticlib/libgroovepawn.a
    else
        # rt builds a program to run it. On no input and with no words these end at once, and leave nothing.
        prove "$name" rt run
        install -Dm 755 "crates/$name/out/$name" "target/bin/$name"
    fi
done

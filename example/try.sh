#!/usr/bin/env bash
# Builds each example and compares what it prints with the blocks of example/README.md.
#
#     tools/build.sh groovepawn && example/try.sh
#
# Another compiler: CC=clang example/try.sh. Another archive: example/try.sh path/to/libgroovepawn.a
set -euo pipefail
archive=$(realpath "${1:-$(dirname "$0")/../target/staticlib/libgroovepawn.a}")
cd "$(dirname "$0")/.."
built=$(mktemp -d)
trap 'rm -r "$built"' EXIT

# What README says after a line that begins with the words given: the next block that is set in by four blanks.
said() {
    awk -v words="$1" 'index($0, words) == 1 { on = 1; next } on && /^    / { print substr($0, 5); seen = 1; next } seen { exit }' example/README.md
}

fault=0
compare() {
    if [ -z "$2" ] || [ "$2" != "$3" ]; then
        printf '%s: README says\n%s\nand it prints\n%s\n' "$1" "$2" "$3"
        fault=1
    else
        printf '%s: as README says\n' "$1"
    fi
}

for name in tick_loop bays station; do
    "${CC:-cc}" -std=c99 -Wall -Wextra -Wpedantic -Wconversion -Wshadow -Werror -Iinclude "example/$name.c" "$archive" -o "$built/$name"
done
compare tick_loop "$(said 'It prints')" "$("$built/tick_loop")"
compare "tick_loop spoilt" "$(said 'Called with an argument')" "$("$built/tick_loop" spoilt || true)"
compare bays "$(said '`bays.c`')" "$("$built/bays")"
compare station "$(said '`station.c`')" "$("$built/station")"
if "$built/tick_loop" spoilt > /dev/null; then
    echo "tick_loop: a refusal ends it with status 0"
    fault=1
fi
exit "$fault"

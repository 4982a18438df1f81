#!/usr/bin/env bash
# Runs the gate and every test beside it, and prints a table. Some take long, the gate most of all.
#
#     tools/check-all.sh [NAME..]
#
# With names, only those. A test whose tools are not installed is told as such, and counts as not passed.
set -uo pipefail
cd "$(dirname "$0")/.."

names=(gate edits edges lists header examples documents desk station playground independent bench processors)
declare -A does=(
    [gate]='.ci/run'
    [edits]='python3 tools/must-fail-logs.py target/check/gate'
    [edges]='python3 tools/crate-edges.py'
    [lists]='python3 tools/reading-list.py'
    [header]='python3 tools/check-header.py'
    [examples]='tools/build.sh groovepawn && example/try.sh'
    [documents]='tools/build.sh groovepawn enforce wave why clean compile show && tools/check-documents.sh && tools/spoil-documents.py'
    [desk]='tools/build.sh groovepawn enforce wave why clean compile show && cd rust && cargo test --offline'
    [station]='make desk && example/station/play.sh | diff example/station/prints -'
    [playground]='make --no-print-directory playground-check'
    [independent]='cd independent && cargo test --offline'
    [bench]='cd bench && cargo test --offline'
    [processors]='tools/cross-test.sh'
)

logs=target/check
mkdir -p "$logs"
failed=0
table=()
for name in "${@:-${names[@]}}"; do
    if [[ -z ${does[$name]:-} ]]; then
        echo "check-all: no test $name; there are ${names[*]}" >&2
        exit 2
    fi
    echo "$name: ${does[$name]}" >&2
    begun=$SECONDS
    log=$(mktemp)
    if (eval "${does[$name]}") >"$log" 2>&1; then
        result=passed
    else
        result=failed
        failed=$((failed + 1))
        tail -n 5 "$log" >&2
    fi
    mkdir -p "$logs"
    mv "$log" "$logs/$name"
    table+=("$(printf '%-12s %-7s %5d s  %s' "$name" "$result" $((SECONDS - begun)) "$(tail -n 1 "$logs/$name" | cut -c1-80)")")
done
echo
printf '%s\n' "${table[@]}"
[[ $failed == 0 ]]

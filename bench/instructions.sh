#!/usr/bin/env bash
# Counts the instructions of one tick on both sides, of one call of each half
# at the worst ticks, of waves written and read, of prepare with its verdict and
# without it, and of clean beside prepare, with callgrind.
set -euo pipefail
shopt -s inherit_errexit
cd "$(dirname "$0")"

streams=(
    "short, no edits"
    "short, many edits"
    "long, no edits"
    "long, many edits"
    "crowded, no edits"
    "crowded, many edits"
    "short, no edits, reading 2"
    "long, no edits, reading 2"
    "long, many edits, reading 2"
)
worst=(
    "barred, both edited"
    "nested, both edited"
    "barred, both edited, reading 2"
    "nested, both edited, reading 2"
)

waves=(
    "all change"
    "one changes"
    "one changes in sixteen"
)

policies=(
    "1,024 states"
    "10,000 states"
    "65,536 states"
    "most must be left"
    "none dies"
    "a third dies"
    "most die"
    "all die"
    "the dead not reached"
    "the longest file"
    "128 rules where reached"
    "256 rules where reached"
    "65,536 states, reading 2"
    "most must be left, reading 2"
    "most die, reading 2"
)

cleaned=(
    "all entered, all used"
    "every second location entered"
    "a rule in four decides nothing"
    "a default after a split deadline"
    "entered in falling order"
    "a chain while a clock goes up"
    "a tenth not live"
    "a late rule"
    "16 rules, some late, some shadowed"
    "256 rules, an event each"
    "256 rules, the last decides nothing"
    "256 rules, random bounds"
    "239 rules covered only together"
)

sides=(plain)
features=()
if [[ -f "${GROOVEPAWN_LIB:-../target/staticlib/libgroovepawn.a}" ]]; then
    sides+=(library)
    features+=(--features library)
else
    echo "no library found: the plain program only" >&2
fi
cargo build --release --offline --quiet "${features[@]}"

work=$(mktemp -d)
trap 'rm -rf "$work"' EXIT

# Instructions of the whole program: side, how many times, stream, and nothing
# for ticks of a run, the half that is called, or what is done with a wave.
options=()
instructions() {
    valgrind --tool=callgrind --log-file="$work/log" --callgrind-out-file="$work/counts" \
        ${options[@]+"${options[@]}"} target/release/bench instructions "$@"
    awk '$1 == "totals:" { print $2 }' "$work/counts"
}

# Side, few, many, stream, half. What is done before the first time is the
# same for both numbers, so it is not in the difference.
per_time() {
    local less more
    less=$(instructions "$1" "$2" "${@:4}")
    more=$(instructions "$1" "$3" "${@:4}")
    awk -v more="$more" -v less="$less" -v times=$(($3 - $2)) \
        'BEGIN { printf "%.1f", (more - less) / times }'
}

# A row of the table: few, many, stream, half.
row() {
    local counts=() side count ratio
    for side in "${sides[@]}"; do
        count=$(per_time "$side" "$@")
        counts+=("$count")
    done
    ratio=$(awk -v a="${counts[0]}" -v b="${counts[-1]}" 'BEGIN { printf "%.2f", b / a }')
    printf '%-44s' "${*:3}"
    printf ' %10s' "${counts[@]}" "$ratio"
    printf '\n'
}

heading() {
    echo "$1"
    printf '%-44s' stream
    printf ' %10s' "${sides[@]}" ratio
    printf '\n'
}

heading "instructions a tick of a run"
for stream in "${streams[@]}"; do
    row 4096 16384 "$stream"
done
for stream in "${worst[@]}"; do
    row 256 1024 "$stream"
done
heading "instructions a call, the check of the file among them"
for stream in "${worst[@]}"; do
    for half in input output; do
        row 64 256 "$stream" "$half"
    done
done
heading "instructions a call over a wave of 16,384 events"
for wave in "${waves[@]}"; do
    for way in write read; do
        row 1 3 "$wave" "$way"
    done
done

# The library's search for the verdict is one function, and only what is counted
# within it is the verdict's.
search=prepare::reach::search
if [[ ${sides[-1]} == library ]]; then
    if ! nm target/release/bench | grep " $search\$" >/dev/null; then
        echo "no function $search: the verdict cannot be counted apart" >&2
        exit 1
    fi
    echo "instructions a call of prepare, without its verdict and with it"
    printf '%-44s %12s %12s %8s\n' policy without with ratio
    for policy in "${policies[@]}"; do
        whole=$(per_time library 1 2 "$policy" prepare)
        options=("--toggle-collect=$search")
        verdict=$(per_time library 1 2 "$policy" prepare)
        options=()
        awk -v policy="$policy" -v whole="$whole" -v verdict="$verdict" \
            'BEGIN { printf "%-44s %12d %12d %8.2f\n", policy, whole - verdict, whole, whole / (whole - verdict) }'
    done

    # What is counted is the right work: the model strikes out the same.
    target/release/agree cleanings >/dev/null
    echo "instructions a call of clean, beside prepare"
    printf '%-44s %12s %12s %8s\n' policy prepare clean ratio
    for policy in "${cleaned[@]}"; do
        prepare=$(per_time library 1 2 "$policy" prepare)
        clean=$(per_time library 1 2 "$policy" clean)
        awk -v policy="$policy" -v prepare="$prepare" -v clean="$clean" \
            'BEGIN { printf "%-44s %12.0f %12.0f %8.2f\n", policy, prepare, clean, clean / prepare }'
    done
fi

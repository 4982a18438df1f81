#!/usr/bin/env bash
# Plays two hours of the station, twice: with a clock that wraps, and with this enforcer. See README.md.
#
#     make && example/station/play.sh [FOLDER]
#
# The records and the waves are left in FOLDER, target/station if none is named. GROOVEPAWN names another program.
set -euo pipefail
here=$(cd "$(dirname "$0")" && pwd)
top=$here/../..
folder=${1:-$top/target/station}
groovepawn=${GROOVEPAWN:-$top/rust/target/release/groovepawn}
if [[ ! -x $groovepawn ]]; then
    echo "play: $groovepawn is not there; make builds it" >&2
    exit 1
fi
ticks=72000
mkdir -p "$folder"
cd "$folder"
for program in field controller wrapping; do
    "${CC:-cc}" -O2 -Wall -Wextra -I"$here" "$here/$program.c" -o "$program"
done

# The field and the controller write to the enforcer in turn; what it answers goes to the controller, which drives the valve.
#     play NAME ENFORCER ..
play() {
    local name=$1
    shift
    rm -f to_enforcer to_controller to_field
    mkfifo to_enforcer to_controller to_field
    ./field $ticks "$name.inputs" >to_enforcer <to_field 2>"$name.field" &
    ./controller $ticks "$name.outputs" 3>to_enforcer <to_controller >to_field 2>"$name.controller" &
    "$@" <to_enforcer >to_controller
    wait
    rm to_enforcer to_controller to_field
    # A line for each tick: the signals as read and as wanted.
    paste -d ' ' "$name.inputs" "$name.outputs" | sed 's/^ *$/-/' >"$name.events"
    cat "$name.controller" "$name.field"
}

echo "with a clock of sixteen bits:"
play wrapping ./wrapping
echo
echo "with groovepawn live:"
play enforced "$groovepawn" live "$here/station.text"
echo
echo "groovepawn why station.text enforced.events:"
"$groovepawn" why "$here/station.text" enforced.events
"$groovepawn" wave --all "$here/station.text" enforced.events -o enforced.vcd
"$groovepawn" draw "$here/station.text" -o station.dot

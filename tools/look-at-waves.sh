#!/usr/bin/env bash
# Shows that GTKWave takes the files of the wave writer. Writes the wave of an
# input of `enforce`, lets `vcd2fst` convert it, and fails on any complaint or if
# the converted file says something else; where Xvfb and ImageMagick are, makes a
# picture of what the viewer shows.
#
#   tools/look-at-waves.sh [INPUT [FOLDER]]
#
# INPUT is a file as `enforce` reads it (if none is named, the sample of
# crates/wave), FOLDER where the files go (a new one if none is named).
# The text is that of target/bin/wave, or of the program in independent/ if
# that is not built. Debian's packages: gtkwave, xvfb, imagemagick.
set -euo pipefail
shopt -s inherit_errexit
root=$(cd "$(dirname "$0")/.." && pwd)

input=${1:-$root/crates/wave/stdin}
folder=${2:-$(mktemp -d)}
mkdir -p "$folder"
wave=$folder/wave.vcd

if [[ -x $root/target/bin/wave ]]; then
    echo "written by target/bin/wave"
    "$root/target/bin/wave" < "$input" > "$wave"
else
    echo "written by independent"
    cargo run --quiet --offline --manifest-path "$root/independent/Cargo.toml" -- \
        prints wave < "$input" > "$wave"
fi
if ! grep -q '^\$timescale' "$wave"; then
    echo "not a wave: $(head -n 1 "$wave")" >&2
    exit 1
fi

# It has no words for a file that it takes: whatever it says is a complaint. Of
# some broken files it says nothing, hence the comparison below.
complaint=$(vcd2fst "$wave" "$folder/wave.fst" 2>&1) || {
    echo "vcd2fst failed: $complaint" >&2
    exit 1
}
if [[ -n $complaint ]]; then
    echo "vcd2fst complains: $complaint" >&2
    exit 1
fi
echo "vcd2fst: no complaint"

# What the converter understood must be what was written: each time, and each
# value with its time and its signal.
fst2vcd "$folder/wave.fst" > "$folder/back.vcd"
changes() {
    awk '$1 == "$var" { name[$4] = $5 }
        /^#/ { time = substr($0, 2); print time }
        /^[01]/ { print time, name[substr($0, 2)], substr($0, 1, 1) }' "$1" | sort
}
changes "$wave" > "$folder/written"
changes "$folder/back.vcd" > "$folder/converted"
diff "$folder/written" "$folder/converted" >&2 || {
    echo "the converted file says something else" >&2
    exit 1
}
echo "converted and back: the same $(grep -c ' ' "$folder/written") values at $(grep -vc ' ' "$folder/written") times"

if ! command -v Xvfb > /dev/null || ! command -v import > /dev/null; then
    echo "no Xvfb or no ImageMagick: no picture"
    exit 0
fi
# All signals, in the viewer's order, over the whole of the time.
cat > "$folder/all.tcl" <<'END'
set names [list]
for {set i 0} {$i < [gtkwave::getNumFacs]} {incr i} {
    lappend names [gtkwave::getFacName $i]
}
gtkwave::addSignalsFromList $names
gtkwave::/Time/Zoom/Zoom_Full
END
display=:$((90 + RANDOM % 900))
Xvfb "$display" -screen 0 1000x400x24 > "$folder/xvfb.log" 2>&1 &
server=$!
viewer=
trap 'kill $viewer $server 2> /dev/null || true' EXIT
for _ in $(seq 50); do
    DISPLAY=$display import -window root "$folder/empty.png" 2> /dev/null && break
    sleep 0.2
done
DISPLAY=$display gtkwave -S "$folder/all.tcl" "$wave" > "$folder/gtkwave.log" 2>&1 &
viewer=$!
# The picture is taken when two in a row, not of an empty screen, are alike.
previous=
for _ in $(seq 60); do
    sleep 1
    DISPLAY=$display import -window root "$folder/wave.png"
    current=$(identify -format '%#' "$folder/wave.png")
    empty=$(identify -format '%#' "$folder/empty.png")
    [[ $current == "$previous" && $current != "$empty" ]] && break
    previous=$current
done
echo "picture: $folder/wave.png"
cat "$folder/gtkwave.log"

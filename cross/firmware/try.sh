#!/usr/bin/env bash
# Builds the firmware of a station for a Cortex-M4 and runs it: what it writes on its serial line must be what the same loop writes at a desk. The
# archives for both are there: tools/cross-library.sh x86_64-linux cortex-m4
set -euo pipefail
cd "$(dirname "$0")/../.."
work=$(mktemp -d)
trap 'rm -rf "$work"' EXIT
folder=cross/firmware
strict=(-O2 -Wall -Wextra -Iinclude -I"$work" -I"$folder")

gcc "${strict[@]}" "$folder/constants.c" target/staticlib/libgroovepawn.a -o "$work/constants"
"$work/constants" >"$work/constants.h"
gcc "${strict[@]}" "$folder/station.c" "$folder/desk.c" target/staticlib/libgroovepawn.a -o "$work/desk"
"$work/desk" >"$work/at-desk"
arm-none-eabi-gcc -mcpu=cortex-m4 -mthumb -mfloat-abi=soft -Os -ffunction-sections -fdata-sections -ffreestanding -Iinclude -I"$work" -I"$folder" \
    "$folder/station.c" "$folder/board.c" target/cross/cortex-m4/libgroovepawn.a -nostartfiles -Wl,--gc-sections -T "$folder/m4.ld" \
    -o "$work/firmware.elf" 2>"$work/linker" || { cat "$work/linker" >&2; exit 1; }
timeout 60 qemu-system-arm -M mps2-an386 -display none -monitor none -serial "file:$work/serial" \
    -semihosting-config enable=on,target=native -kernel "$work/firmware.elf"
grep -v '^stack ' "$work/serial" >"$work/on-board" || true
stack=$(sed -n 's/^stack //p' "$work/serial")
read -r text data bss < <(arm-none-eabi-size "$work/firmware.elf" | awk 'END { print $1, $2, $3 }')
if ! cmp -s "$work/at-desk" "$work/on-board" || [[ ! -s $work/at-desk ]]; then
    echo "firmware: the board writes something else"
    diff "$work/at-desk" "$work/on-board" || true
    exit 1
fi
echo "firmware: $(wc -l <"$work/on-board") ticks as at a desk; flash $((text + data)) bytes of 131072, memory $((data + bss + stack)) bytes of 32768, of which stack $stack"

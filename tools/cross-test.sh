#!/usr/bin/env bash
# Makes the library for every processor and tests it there, with a table at the end:
#
#     tools/cross-test.sh [TARGET..]
#
# On each target: the stored cases of crates/vectors, every kind of record, every answer and every later byte of every slice; the wrong
# expectations, all of which must be noticed; what the examples print; the size of the whole archive and of what a loop of both halves pulls in;
# the deepest stack of each function, painted; the instructions of each half. Then a build whose lengths are left 64 bits wide on a 32-bit machine,
# which must fail, and the firmware of a station on a Cortex-M4.
#
# Instructions are counted by the emulator, which is told to take them one by one and to print a line for each: two programs that differ in how often
# they call a half are compared.
set -euo pipefail
shopt -s inherit_errexit
cd "$(dirname "$0")/.."

all=(x86_64-linux aarch64-linux armv7-linux riscv64-linux cortex-m0 cortex-m4 cortex-m4f riscv32 wasm32)
targets=("${@:-${all[@]}}")

# A command of each Debian package that is needed.
packages='gcc gcc
gcc-aarch64-linux-gnu aarch64-linux-gnu-gcc
gcc-arm-linux-gnueabihf arm-linux-gnueabihf-gcc
gcc-riscv64-linux-gnu riscv64-linux-gnu-gcc
gcc-arm-none-eabi arm-none-eabi-gcc
gcc-riscv64-unknown-elf riscv64-unknown-elf-gcc
qemu-user qemu-aarch64
qemu-system-arm qemu-system-arm
qemu-system-misc qemu-system-riscv32
nodejs node
valgrind valgrind'
missing=()
while read -r package command; do
    command -v "$command" >/dev/null || missing+=("$package")
done <<<"$packages"
# Two packages have no command of their own.
[[ -f /usr/include/newlib/stdio.h || -d /usr/lib/arm-none-eabi/newlib ]] || missing+=(libnewlib-arm-none-eabi)
[[ -d /usr/lib/picolibc/riscv64-unknown-elf ]] || missing+=(picolibc-riscv64-unknown-elf)
if [[ ${#missing[@]} -gt 0 ]]; then
    echo "missing packages of Debian: ${missing[*]}" >&2
    exit 2
fi

work=$(mktemp -d)
trap 'rm -rf "$work"' EXIT
archives=target/cross
faults=0

# The archive of a target.
archive() {
    case $1 in
    x86_64-linux) echo target/staticlib/libgroovepawn.a ;;
    *) echo "$archives/$1/libgroovepawn.a" ;;
    esac
}

# Compiles for a target: target, program, then sources and options. The archive is that of the target, or the one that ARCHIVE names.
build() {
    local target=$1 program=$2 lib=${ARCHIVE:-$(archive "$1")} flags=(-O2 -ffunction-sections -Iinclude -Itools)
    shift 2
    local arm=(--specs=rdimon.specs -nostartfiles -T cross/bare/arm.ld cross/bare/arm_start.c)
    local link=(-Wl,--gc-sections)
    case $target in
    x86_64-linux) gcc "${flags[@]}" "$@" "$lib" -pthread -Wl,-z,now -o "$program" ;;
    aarch64-linux) aarch64-linux-gnu-gcc "${flags[@]}" -static "$@" "$lib" -pthread -o "$program" ;;
    armv7-linux) arm-linux-gnueabihf-gcc "${flags[@]}" -static "$@" "$lib" -pthread -o "$program" ;;
    riscv64-linux) riscv64-linux-gnu-gcc "${flags[@]}" -static "$@" "$lib" -pthread -o "$program" ;;
    cortex-m0) arm-none-eabi-gcc -mcpu=cortex-m0 -mthumb -mfloat-abi=soft "${flags[@]}" "$@" "${arm[@]}" "$lib" "${link[@]}" -o "$program" ;;
    cortex-m4) arm-none-eabi-gcc -mcpu=cortex-m4 -mthumb -mfloat-abi=soft "${flags[@]}" "$@" "${arm[@]}" "$lib" "${link[@]}" -o "$program" ;;
    cortex-m4f)
        arm-none-eabi-gcc -mcpu=cortex-m4 -mthumb -mfloat-abi=hard -mfpu=fpv4-sp-d16 "${flags[@]}" "$@" "${arm[@]}" "$lib" "${link[@]}" -o "$program"
        ;;
    riscv32)
        riscv64-unknown-elf-gcc -march=rv32imac -mabi=ilp32 -mcmodel=medany --specs=picolibc.specs --crt0=hosted --oslib=semihost \
            "${flags[@]}" "$@" "$lib" -T cross/bare/riscv32.ld "${link[@]}" -o "$program"
        ;;
    esac 2>"$work/compiler" || { cat "$work/compiler" >&2; return 1; }
}

# Runs a program of a target; words after it go to the emulator.
run() {
    local target=$1 program=$2 board=(-display none -monitor none -serial none -semihosting-config 'enable=on,target=native')
    shift 2
    case $target in
    x86_64-linux) "$program" ;;
    aarch64-linux) qemu-aarch64 "$@" "$program" ;;
    armv7-linux) qemu-arm "$@" "$program" ;;
    riscv64-linux) qemu-riscv64 "$@" "$program" ;;
    cortex-m0) timeout 600 qemu-system-arm -M mps2-an385 "${board[@]}" "$@" -kernel "$program" ;;
    cortex-m4 | cortex-m4f) timeout 600 qemu-system-arm -M mps2-an386 "${board[@]}" "$@" -kernel "$program" ;;
    riscv32) timeout 600 qemu-system-riscv32 -M virt -bios none -m 16M "${board[@]}" "$@" -kernel "$program" ;;
    esac 2>&1
}

how() {
    case $1 in
    x86_64-linux) echo "this machine" ;;
    aarch64-linux) echo "qemu-aarch64" ;;
    armv7-linux) echo "qemu-arm" ;;
    riscv64-linux) echo "qemu-riscv64" ;;
    cortex-m0) echo "mps2-an385 (a Cortex-M3)" ;;
    cortex-m4 | cortex-m4f) echo "mps2-an386 (a Cortex-M4)" ;;
    riscv32) echo "qemu's virt" ;;
    wasm32) echo "node $(node --version)" ;;
    esac
}

# The last line of the replayed cases.
replayed() {
    if [[ $1 == wasm32 ]]; then
        node cross/replay.mjs "$archives/wasm32/groovepawn.wasm" crates/vectors/data/cases crates/vectors/data/wrong
    else
        build "$1" "$work/replay" cross/replay.c cross/cases.S && run "$1" "$work/replay"
    fi >"$work/replayed" || true
    tail -n 1 "$work/replayed"
}

# What the examples print.
printed() {
    if [[ $1 == wasm32 ]]; then
        node cross/tick_loop.mjs "$archives/wasm32/groovepawn.wasm"
        return
    fi
    for name in tick_loop bays station; do
        build "$1" "$work/$name" "example/$name.c" && run "$1" "$work/$name"
    done
}

# Bytes of text: of the whole archive, and of what both halves pull in.
text_sizes() {
    local lib tools
    lib=$(archive "$1")
    case $1 in
    wasm32)
        stat -c %s "$archives/wasm32/groovepawn.wasm" "$archives/wasm32/loop.wasm" | paste -sd ' '
        return
        ;;
    x86_64-linux) tools='' ;;
    aarch64-linux) tools=aarch64-linux-gnu- ;;
    armv7-linux) tools=arm-linux-gnueabihf- ;;
    riscv64-linux) tools=riscv64-linux-gnu- ;;
    cortex-*) tools=arm-none-eabi- ;;
    riscv32) tools=riscv64-unknown-elf- ;;
    esac
    local emulation=()
    [[ $1 != riscv32 ]] || emulation=(-m elf32lriscv)
    "${tools}ld" "${emulation[@]}" -r --gc-sections -u groovepawn_input -u groovepawn_output -e groovepawn_input "$lib" -o "$work/loop.o"
    "${tools}size" -t "$lib" | awk 'END { printf "%s ", $1 }'
    "${tools}size" "$work/loop.o" | awk 'END { print $1 }'
}

# Instructions of one call: policy, half.
instructions() {
    local target=$1 calls counts=()
    for calls in 1 3; do
        build "$target" "$work/counted" -DPOLICY="$2" -DHALF="$3" -DCALLS="$calls" cross/counted.c
        if [[ $target == x86_64-linux ]]; then
            valgrind --tool=callgrind --callgrind-out-file="$work/counts" "$work/counted" 2>/dev/null
            counts+=("$(awk '$1 == "totals:" { print $2 }' "$work/counts")")
        else
            counts+=("$(run "$target" "$work/counted" -singlestep -d exec,nochain | grep -c '^Trace' || true)")
        fi
    done
    echo $(((counts[1] - counts[0]) / 2))
}

echo "making the archives" >&2
wide=()
[[ " ${targets[*]} " != *" cortex-m4 "* ]] || wide=(cortex-m4-wide)
tools/cross-library.sh "${targets[@]}" "${wide[@]}" x86_64-linux >/dev/null

summary=()
note() { summary+=("$(printf '%-15s %-26s %-44s %-9s %7s %7s' "$@")"); }

printed x86_64-linux >"$work/printed.here"
for target in "${targets[@]}"; do
    echo "$target" >&2
    cases=$(replayed "$target")
    [[ $cases =~ ^0\ different,\ ([0-9]+)\ of\ ([0-9]+)\ wrong && ${BASH_REMATCH[1]} == "${BASH_REMATCH[2]}" ]] || faults=$((faults + 1))
    printed "$target" >"$work/printed" || true
    examples=alike
    if [[ $target == wasm32 ]]; then
        # The loop alone.
        cmp -s "$work/printed" <(head -n "$(wc -l <"$work/printed")" "$work/printed.here") || examples=different
    else
        cmp -s "$work/printed" "$work/printed.here" || examples=different
    fi
    [[ $examples == alike && -s $work/printed ]] || faults=$((faults + 1))
    read -r whole loop < <(text_sizes "$target")
    note "$target" "$(how "$target")" "$cases" "$examples" "$whole" "$loop"
done

# The same on a 32-bit machine whose lengths come in with 64 bits: the test would be worth nothing if it passed.
for target in "${wide[@]}"; do
    cases=$(ARCHIVE=$(archive "$target") replayed "${target%-wide}")
    [[ ! $cases =~ ^0\ different ]] || faults=$((faults + 1))
    note "${target%-wide}" "with lengths left wide" "$cases" "" "" ""
done

echo
echo "the deepest stack of each function, in bytes"
for target in "${targets[@]}"; do
    if [[ $target == wasm32 ]]; then
        node cross/stack.mjs "$archives/wasm32/groovepawn.wasm"
    else
        build "$target" "$work/stack" tools/stack.c && run "$target" "$work/stack"
    fi | awk -v target="$target" '{ print target, $1, $2 }'
done >"$work/stacks"
awk '{ if (!($1 in t)) { t[$1]; order[++n] = $1 } if (!($2 in f)) { f[$2]; functions[++m] = $2 } v[$1, $2] = $3 }
    END { printf "%-32s", ""; for (i = 1; i <= n; i++) printf " %13s", order[i]; print ""
          for (j = 1; j <= m; j++) { printf "%-32s", functions[j]; for (i = 1; i <= n; i++) printf " %13s", v[order[i], functions[j]]; print "" } }' "$work/stacks"

echo
echo "instructions of one call"
printf '%-28s' ''
for target in "${targets[@]}"; do [[ $target == wasm32 ]] || printf ' %13s' "$target"; done
echo
for policy in example nested barred; do
    for half in input input_indexed output output_indexed; do
        printf '%-28s' "$policy, $half"
        for target in "${targets[@]}"; do
            [[ $target != wasm32 ]] || continue
            printf ' %13s' "$(instructions "$target" "$policy" "$half")"
        done
        echo
    done
done

if [[ ${#wide[@]} -gt 0 ]]; then
    echo
    cross/firmware/try.sh || faults=$((faults + 1))
fi

echo
printf '%-15s %-26s %-44s %-9s %7s %7s\n' target ran "stored cases" examples text loop
printf '%s\n' "${summary[@]}"
echo
if [[ $faults -gt 0 ]]; then
    echo "$faults faults"
    exit 1
fi
echo "all targets alike"

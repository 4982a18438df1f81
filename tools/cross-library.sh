#!/usr/bin/env bash
# Makes the library for other processors, and prints where each archive is:
#
#     tools/cross-library.sh TARGET..
#
#     x86_64-linux   the archive that the toolchain makes
#     aarch64-linux  armv7-linux  riscv64-linux
#     cortex-m0  cortex-m4  cortex-m4f  riscv32      bare, without an operating system
#     wasm32         an archive, and beside it groovepawn.wasm, which has all functions, and loop.wasm, which has both halves
#     native         the machine that this runs on, if it is one of the Linux machines above
#
# The toolchain compiles for x86-64 alone. Here its last step is done again: the
# module that it hands to its clang is kept, and the same clang compiles it with
# the same options for another machine. That the module kept is the one of the
# proved build is checked: compiled for x86-64 it must give the toolchain's own
# archive, byte for byte. The proofs are about the language's machine, whose sizes
# have 64 bits; what comes out for another machine is tested (tools/cross-test.sh).
#
# A 32-bit target with -wide behind its name has its lengths left 64 bits wide: such
# an archive does not fit the header, and the test must notice.
set -euo pipefail
shopt -s inherit_errexit
cd "$(dirname "$0")/.."

usage() {
    sed -n '2,9s/^# \{0,1\}//p' "$0" >&2
    exit 2
}

# What the compiler is told of a target.
describe() {
    bits=64 position=-fPIC options=()
    case ${1%-wide} in
    x86_64-linux) triple=x86_64-unknown-linux-gnu ;;
    aarch64-linux) triple=aarch64-unknown-linux-gnu ;;
    riscv64-linux) triple=riscv64-unknown-linux-gnu options=(-march=rv64gc -mabi=lp64d) ;;
    armv7-linux) triple=armv7-unknown-linux-gnueabihf bits=32 ;;
    cortex-m0) triple=thumbv6m-none-eabi bits=32 position='' options=(-mcpu=cortex-m0 -mfloat-abi=soft) ;;
    cortex-m4) triple=thumbv7em-none-eabi bits=32 position='' options=(-mcpu=cortex-m4 -mfloat-abi=soft) ;;
    cortex-m4f) triple=thumbv7em-none-eabihf bits=32 position='' options=(-mcpu=cortex-m4 -mfloat-abi=hard) ;;
    riscv32) triple=riscv32-unknown-elf bits=32 position='' options=(-march=rv32imac -mabi=ilp32) ;;
    wasm32) triple=wasm32-unknown-unknown bits=32 position='' ;;
    *) usage ;;
    esac
}

[[ $# -gt 0 ]] || usage
targets=()
for target in "$@"; do
    [[ $target != native ]] || target=$(uname -m)-linux
    describe "$target"
    targets+=("$target")
done

fail() {
    echo "cross-library: $*" >&2
    exit 1
}

built=target/staticlib/libgroovepawn.a
kept=target/cross/kept
header=include/groovepawn.h
kit=$(dirname "$(rt doc)")
tools=$kit/toolchain/bin
clang=$tools/clang
ar=$tools/llvm-ar
work=$(mktemp -d)
trap 'rm -rf "$work"' EXIT

# Links to what is in folder $1, but for what the other words name, in the new folder $2.
mirror() {
    local from=$1 to=$2 entry
    shift 2
    mkdir -p "$to"
    for entry in "$from"/*; do
        [[ " $* " == *" $(basename "$entry") "* ]] || ln -s "$entry" "$to"
    done
}

# Builds the archive by a kit like the given one, whose clang keeps the module and
# the options that it is called with. The kit is the folder that rt's own file is in.
keep_module() {
    mirror "$kit" "$work/kit" bin toolchain
    mirror "$kit/bin" "$work/kit/bin" rt rtlib.py
    cp "$kit/bin/rt" "$kit/bin/rtlib.py" "$work/kit/bin"
    mirror "$kit/toolchain" "$work/kit/toolchain" bin
    mirror "$tools" "$work/kit/toolchain/bin" clang
    cat >"$work/kit/toolchain/bin/clang" <<KEEP
#!/bin/sh
cp module.bc "$work/module.bc"
printf '%s\n' "\$@" >"$work/options"
exec "$clang" "\$@"
KEEP
    chmod +x "$work/kit/toolchain/bin/clang"
    rm -f crates/groovepawn_c/out/libgroovepawn_c.a
    PATH=$work/kit/bin:$PATH tools/build.sh groovepawn >&2
    [[ -f $work/module.bc ]] || fail "the toolchain did not hand its module to clang"
    mkdir -p "$kept"
    cp "$work/module.bc" "$kept/module.bc"
    # The folder of this one run is no option.
    grep -v -- '^--sysroot=' "$work/options" >"$kept/options"
}

# The module kept gives the archive of the proved build.
is_kept() {
    [[ -f $kept/module.bc && -f $built ]] || return 1
    local again=$work/again options
    mkdir -p "$again"
    cp "$kept/module.bc" "$again"
    mapfile -t options <"$kept/options"
    (cd "$again" && "$clang" "${options[@]}" && mv module.o groovepawn_c.o && "$ar" rcs libgroovepawn.a groovepawn_c.o)
    cmp -s "$again/libgroovepawn.a" "$built"
}

# The functions that the header declares, a line each. What it defines itself ends in a brace.
prototypes() {
    awk 'BEGIN { RS = "\\*/" } { sub(/\/\*.*/, ""); printf "%s", $0 }' "$header" |
        awk 'BEGIN { RS = ";" } { gsub(/\n/, " "); if (match($0, /uint(32|64)_t +groovepawn_[a-z_]+\([^(){}]*\) *$/)) print substr($0, RSTART) }'
}

# The module as text, without the words that bind it to x86-64.
loosen() {
    "$clang" --no-default-config --target=x86_64-unknown-linux-gnu -Xclang -disable-llvm-passes -O3 \
        -S -emit-llvm -x ir "$kept/module.bc" -o "$work/x86_64.ll"
    # On a machine with smaller pointers it must not matter what a pointer looks like.
    if grep -E 'ptrtoint|inttoptr|addrspacecast|asm ' "$work/x86_64.ll" >&2; then
        fail "the module looks into pointers"
    fi
    sed -e '/^target datalayout/d' -e '/^target triple/d' -e 's/"\(target\|tune\)-[a-z]*"="[^"]*"//g' "$work/x86_64.ll" >"$work/loose.ll"
}

# A length is a size_t of its machine: it comes in with 32 bits, and is widened inside.
widen_lengths() {
    sed -i -E '/^define noundef i(32|64) @groovepawn_[a-z_]*\(/,/^}/{
        /^define/s/i64 noundef %/i32 noundef %/g
        s/^  store i64 %a([0-9]+), /  %wide\1 = zext i32 %a\1 to i64\n  store i64 %wide\1, /
    }' "$work/module.ll"
    local widened lengths
    widened=$(grep -c '^  %wide[0-9]* = zext i32 %a[0-9]* to i64$' "$work/module.ll")
    lengths=$(prototypes | grep -oE '\bsize_t ' | wc -l)
    [[ $widened == "$lengths" ]] || fail "$widened lengths widened, and the header has $lengths"
}

# The archive for one target, of the module as text.
compile() {
    local target=$1 out=target/cross/$1
    describe "$target"
    cp "$work/loose.ll" "$work/module.ll"
    # RISC-V's calls return 32-bit numbers extended by their sign; the module leaves the upper half open.
    if [[ $target == riscv64-linux ]]; then
        sed -i 's/^define noundef i32 @groovepawn_/define noundef signext i32 @groovepawn_/' "$work/module.ll"
    fi
    if [[ $bits == 32 ]]; then
        sed -i 's/"probe-stack"="[^"]*"//g' "$work/module.ll"
        [[ $target == *-wide ]] || widen_lengths
    fi
    mkdir -p "$out"
    rm -f "$out/libgroovepawn.a"
    "$clang" --no-default-config -Wno-override-module "--target=$triple" "${options[@]}" \
        -ffunction-sections -fdata-sections -mllvm -trap-unreachable -mllvm -no-trap-after-noreturn \
        -mllvm -disable-machine-licm -mllvm -disable-postra-machine-licm -mllvm -sink-common-insts=false \
        ${position:+"$position"} -O3 -c -x ir "$work/module.ll" -o "$work/groovepawn.o"
    "$ar" rcs "$out/libgroovepawn.a" "$work/groovepawn.o"
    if [[ $target == wasm32 ]]; then
        link_wasm "$out"
    fi
    echo "$PWD/$out/libgroovepawn.a"
}

# All functions of the header, in a module of their own. clang under another name is the linker.
link_wasm() {
    local exports
    mapfile -t exports < <(prototypes | grep -oE '\bgroovepawn_[a-z_]+\(' | tr -d '(')
    ln -sf "$clang" "$work/wasm-ld"
    local options=(--no-entry --strip-all --export=__heap_base --stack-first -z stack-size=2097152)
    "$work/wasm-ld" "${options[@]}" "${exports[@]/#/--export=}" "$1/libgroovepawn.a" -o "$1/groovepawn.wasm"
    # What a loop needs, and no more.
    "$work/wasm-ld" "${options[@]}" --export=groovepawn_input --export=groovepawn_output "$1/libgroovepawn.a" -o "$1/loop.wasm"
}

tools/build.sh groovepawn >&2
if [[ "${targets[*]}" == x86_64-linux ]]; then
    echo "$PWD/$built"
    exit
fi
if ! is_kept; then
    keep_module
    is_kept || fail "the module kept does not give the archive of the proved build"
fi
loosen
for target in "${targets[@]}"; do
    if [[ $target == x86_64-linux ]]; then
        echo "$PWD/$built"
    else
        compile "$target"
    fi
done

#!/usr/bin/env bash
# Makes the tarball of what `make install` puts in place, in target/dist, and its hashes. Names, times, owners and modes are fixed, so that the same
# files give the same tarball.
set -euo pipefail
cd "$(dirname "$0")/.."
number() { sed -n "s/^#define GROOVEPAWN_VERSION_$1 //p" include/groovepawn.h; }
name=groovepawn-$(number MAJOR).$(number MINOR).$(number PATCH)-x86_64-linux
work=$(mktemp -d)
trap 'rm -rf "$work"' EXIT
(umask 022 && tools/install.sh "$work/$name")
(
    cd "$work/$name"
    find . -type f ! -name SHA256SUMS -print0 | LC_ALL=C sort -z | xargs -0 sha256sum >"$work/sums"
    mv "$work/sums" SHA256SUMS
)
mkdir -p target/dist
LC_ALL=C tar --create --directory="$work" --sort=name --mtime=@0 --owner=0 --group=0 --numeric-owner --mode=u=rwX,go=rX --format=ustar "$name" |
    gzip --no-name --best >"target/dist/$name.tar.gz"
cd target/dist
sha256sum "$name.tar.gz" | tee "$name.tar.gz.sha256"

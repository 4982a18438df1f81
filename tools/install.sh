#!/usr/bin/env bash
# Puts what was built under a folder: the library, its headers, a pkg-config file, the program and its man page.
#
#     tools/install.sh FOLDER
set -euo pipefail
into=${1:?where to}
cd "$(dirname "$0")/.."
archive=${GROOVEPAWN_LIB:-target/staticlib/libgroovepawn.a}
program=rust/target/release/groovepawn
for built in "$archive" "$program"; do
    if [[ ! -f $built ]]; then
        echo "install: $built is not there; make builds it" >&2
        exit 1
    fi
done
# The header says the version.
number() { sed -n "s/^#define GROOVEPAWN_VERSION_$1 //p" include/groovepawn.h; }
version=$(number MAJOR).$(number MINOR).$(number PATCH)

install -Dm 644 -t "$into/lib" "$archive"
install -Dm 644 -t "$into/include" include/groovepawn.h include/groovepawn_policy.h include/groovepawn.rs
install -Dm 755 -t "$into/bin" "$program"
install -Dm 644 -t "$into/share/doc/groovepawn" LICENSE README.md
install -Dm 644 -t "$into/share/doc/groovepawn/docs" docs/*.md
install -d "$into/lib/pkgconfig" "$into/share/man/man1"
"$program" --man >"$into/share/man/man1/groovepawn.1"
# The folder is found from where this file stands, so that all of it may be moved.
cat >"$into/lib/pkgconfig/groovepawn.pc" <<END
prefix=\${pcfiledir}/../..
Name: groovepawn
Description: A runtime enforcer for transfer stations
Version: $version
Cflags: -I\${prefix}/include
Libs: -L\${prefix}/lib -lgroovepawn
END
chmod 644 "$into/lib/pkgconfig/groovepawn.pc" "$into/share/man/man1/groovepawn.1"

#!/bin/sh
# Fails if a command, a printed line, a policy, a stream or a link in README.md or docs/ no longer holds. At most a minute, once the crates are proved.
#
#     tools/build.sh groovepawn enforce wave why clean compile show && tools/check-documents.sh [TARGET]
#
# TARGET has the programs in bin/ and the archive in staticlib/ (default: target). Nothing is proved here: of a command that begins with `rt` or
# `tools/build.sh` only what comes after it is run, and only where its program is there. What was skipped is said. With RT=no `rt version` is not asked either.
# It needs python3 and a C compiler (CC), and for one page xxd. A copy of the pages may be checked in place of the repository's own:
#
#     PAGES=folder tools/check-documents.sh
cd "$(dirname "$0")/.." || exit 1
exec python3 -B tools/pages.py "${1:-target}"

#!/usr/bin/env bash
# Tests the page in Chromium, as a person would use it:
#
#     playground/test.sh [NAME ..]              the page that is there, or else is made first
#     playground/test.sh --pictures FOLDER      no test, but pictures of it in both schemes and both widths
#
# It needs Debian's packages chromium and chromium-driver, and python3.
set -euo pipefail
cd "$(dirname "$0")/.."

page=target/playground/groovepawn.html
missing=()
for tool in chromium:chromium chromedriver:chromium-driver python3:python3; do
    command -v "${tool%%:*}" >/dev/null || missing+=("${tool#*:}")
done
if ((${#missing[@]})); then
    echo "playground/test.sh: not tested, because these packages are not installed: ${missing[*]}" >&2
    exit 1
fi
[[ -f $page ]] || make --no-print-directory playground
exec python3 playground/test/test_page.py "$page" "$@"

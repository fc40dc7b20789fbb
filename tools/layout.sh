#!/usr/bin/env bash
# Puts the files of every crate into the toolchain's layout, and names those that it changed.
#
#   tools/layout.sh
#
# The gate refuses a file that isn't in that layout; a check alone doesn't look. The exit status is 1 where a file was changed
# or a crate couldn't be read.
set -u
cd "$(dirname "${BASH_SOURCE[0]}")/.." || exit 2

sums() { find crates/*/src crates/*/specs crates/*/proofs -type f \( -name '*.rt' -o -name '*.antt' \) -exec sha256sum {} + | sort -k 2; }

before=$(sums)
status=0
for folder in crates/*/; do
    (cd "$folder" && rt fmt >/dev/null) || { echo "$folder: rt fmt failed"; status=1; }
done
changed=$(diff <(echo "$before") <(sums) | sed -n 's/^> [0-9a-f]*  //p')
[ -z "$changed" ] || { echo "$changed"; status=1; }
exit $status

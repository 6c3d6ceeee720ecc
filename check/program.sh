#!/usr/bin/env bash
# Compares the program in bin/ with the one that the gate built of the sources, byte for byte, and bin/manifest with both.
#
# usage: check/program.sh           after rt ci; the status is 1 where they differ
#        check/program.sh --make    runs rt ci, and where it passes makes bin/ of what it built
set -u
cd "$(dirname "$0")/.." || exit 1

built=crates/factex/out/factex

# The kit; the program's sha256, and the checksum of all that it is built from.
manifest() {
    echo "kit $(rt version)"
    echo "factex $(sha256sum <"$built" | cut -c 1-64) $(./factex sources | cut -d ' ' -f 2)"
}

if [ "${1-}" = --make ]; then
    rt ci || exit
    mkdir -p bin
    cp "$built" bin/factex || exit
    chmod 755 bin/factex
    manifest >bin/manifest
    exit
fi

status=0
if ! cmp "$built" bin/factex; then status=1; fi
if ! diff <(manifest) bin/manifest; then status=1; fi
if [ "$status" -ne 0 ]; then echo "bin/ is not what these sources give: check/program.sh --make makes it"; fi
exit "$status"

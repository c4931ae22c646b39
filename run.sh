#!/usr/bin/env bash
# Builds a program of this repository (proving what it is made of, some minutes the first time) and runs it on a file:
#   bash run.sh reduce INPUT    two bytes of offset, four of mask, then an image: the shortest table
#   bash run.sh sheet INPUT     four bytes of mask, then an image: the fewest rows at every offset
#   bash run.sh given_up INPUT  the input of reduce: what each folded row gives up
set -euo pipefail
usage="usage: bash run.sh reduce|sheet|given_up FILE"
program="${1:?$usage}"
input="$(realpath "${2:?$usage}")"
cd "$(dirname "${BASH_SOURCE[0]}")"
if [ ! -f "crates/$program/src/main.rt" ]; then
    echo "$usage" >&2
    exit 1
fi
mkdir -p target
log="$PWD/target/$program.log"
cd "crates/$program"
# The program's own words on standard error stand in the log, too, behind those of the check.
status=0
rt run < "$input" 2> "$log" || status=$?
if [ "$status" != 0 ]; then
    tail -n 20 "$log" >&2
fi
exit "$status"

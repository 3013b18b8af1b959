#!/usr/bin/env bash
# Everything that is measured of the built program, in one run, one script after the other.
#
#   bash bench/all.sh PROGRAM [OUT]
#
# PROGRAM is the built program itself (crates/farm/out/farm after `rt ci` or `./farm`). What each script prints goes to OUT (else bench.txt), with the
# time that it took and how it ended; a line for each is printed. Run it from the top of the repository, with nothing else running: some twenty minutes.
# Those scripts that prove and build a program of their own (asks of a desk, appends to a journal, definitions, graphs, Hawk) are run where PROVED=1 is set.
program=$(realpath "$1") || exit 2
out=${2:-bench.txt}
failed=0
export FARM_PROGRAM="$program"
: > "$out"

measure() {
    local begin status
    begin=$(date +%s)
    printf '\n== %s\n' "$*" >> "$out"
    "$@" >> "$out" 2>&1
    status=$?
    [ "$status" = 0 ] || failed=1
    printf '(status %s, %s s)\n' "$status" "$(($(date +%s) - begin))" >> "$out"
    printf '%s: status %s, %s s\n' "$*" "$status" "$(($(date +%s) - begin))"
}

measure python3 bench/serve.py "$program" 1.5
for script in claims opening kills sockets roles cycles scopes templates waits; do
    measure python3 "bench/$script.py" "$program"
done
for script in asks bodies calls turns; do
    measure python3 "bench/$script.py"
done
measure python3 bench/refusals.py "$program" 97
if [ "${PROVED:-0}" = 1 ]; then
    for script in shared_desk journal_appends definitions graph hawk; do
        measure python3 "bench/$script.py"
    done
fi
exit "$failed"

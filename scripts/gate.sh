#!/usr/bin/env bash
# The gate: `rt ci`, bare, and then the scripts that try the program that it built. What failed stands above the last
# line, each with the command that tries it alone. The last line counts both parts as `rt ci` counts, and the exit status
# is 0 if nothing failed.
cd "$(dirname "$0")/.." || exit 1
said=$(mktemp) || exit 1
trap 'rm -f "$said"' EXIT
passed=0
failed=0
named=

# Runs a part of the gate, whose last line is 'N passed, M failed', and adds these up.
part() {
    SECONDS=0
    "$@" 2>&1 | tee "$said"
    local status=${PIPESTATUS[0]}
    if [[ $(tail -n 1 "$said") =~ ^([0-9]+)\ passed,\ ([0-9]+)\ failed$ ]]; then
        ((passed += BASH_REMATCH[1], failed += BASH_REMATCH[2]))
        [[ $status = 0 || ${BASH_REMATCH[2]} != 0 ]] || ((failed += 1))
    else
        ((failed += 1))
    fi
    echo "== $1: $((SECONDS / 60)) minutes"
    [ "$status" = 0 ] || named+="FAILED: $* ($(grep -E '^(rt: )?FAILED: ' "$said" | sed -E 's/^(rt: )?FAILED: //' | tr '\n' ' '))"$'\n'
}

part rt ci
part scripts/try_the_program.sh
if [ -n "$named" ]; then
    printf '%s' "$named"
    echo "To try one alone: 'rt check' or 'rt test' in the folder of a crate, 'rt run' in that of a program, 'rt must-fail NAME'"
    echo "for the edits of a crate; a script by its name, once 'make' has built the program."
fi
echo "$passed passed, $failed failed"
[ "$failed" = 0 ]

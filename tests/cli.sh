#!/usr/bin/env bash
# The command line, as a user meets it: what works, what is refused, and that nothing is lost.
set -uo pipefail
root=$(cd "$(dirname "${BASH_SOURCE[0]}")/.." && pwd)
run=$root/nekahuiro
binary=${CARGO_TARGET_DIR:-$root/rust/target}/release/nekahuiro-cli # what the script runs in the end
folder=$(mktemp -d)
mounted=
trap '[ -z "$mounted" ] || umount "$mounted"; rm -rf "$folder"' EXIT
cd "$folder" || exit 1
passed=0 failed=0

report() { # NAME STATUS: counts a test; a failed one shows what was written
    if [ "$2" = 0 ]; then passed=$((passed + 1)); return; fi
    failed=$((failed + 1))
    printf 'FAILED: %s\n--- output\n%s\n--- errors\n%s\n' "$1" "$(head -40 out)" "$(head -40 err)"
}
ok() { # NAME PATTERN COMMAND..: succeeds, and its output has the pattern
    local name=$1 pattern=$2; shift 2
    "$@" >out 2>err; local status=$?
    [ $status = 0 ] && grep -qE -- "$pattern" out; report "$name" $?
}
fails() { # NAME STATUS PATTERN COMMAND..: fails with this status, and its message has the pattern
    local name=$1 due=$2 pattern=$3; shift 3
    "$@" >out 2>err; local status=$?
    [ $status = "$due" ] && grep -qE -- "$pattern" err; report "$name" $?
}
same() { cmp -s "$2" "$3"; report "$1" $?; }       # NAME FILE FILE
holds() { local name=$1; shift; "$@" >/dev/null 2>&1; report "$name" $?; } # NAME TEST..
soon() { local try; for try in {1..200}; do "$@" && return; sleep 0.05; done; return 1; } # TEST..: within ten seconds
text() { printf '%b' "$1" >"$2"; }
no_leftovers() { [ -z "$(find "$1" -name '.*.nekahuiro')" ]; report "no file is left over in $1" $?; }

# Each part goes on from the files that those before it left.
for part in lists states input files together names commands page readme package script two_phase serial waiting sheets plan audit edition2 pairs; do . "$root/tests/cli/$part.sh"; done

printf 'command line: %d passed, %d failed\n' "$passed" "$failed"
[ "$failed" = 0 ]

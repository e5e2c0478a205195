# What the checks of the built program share. A check sources this, counts with `pass` and `fail`, and ends with `finish`.
# shellcheck shell=bash disable=SC2034
set -u
shopt -s extglob
top=$(cd "$(dirname "$(readlink -f "${BASH_SOURCE[0]}")")/.." && pwd)
program=${ORC_PROGRAM:-$top/crates/orc/out/orc}
if [ ! -x "$program" ]; then
    echo "the program isn't built: there is no $program" >&2
    exit 1
fi
# A folder that is removed when the check ends.
place=$(mktemp -d)
trap 'rm -rf "$place"' EXIT
passed=0
failed=0
# The user's own wish for explanations must not change the checks, which ask for them by `--explain`.
unset ORC_EXPLAIN

pass() { passed=$((passed + 1)); }

# fail TEXT..: counts one failure, and writes the text of the first twenty.
fail() {
    failed=$((failed + 1))
    if [ "$failed" -le 20 ]; then printf '%s\n' "$@"; fi
}

# is_so NAME WANTED GOT: passes if GOT is what is WANTED.
is_so() {
    if [ "$2" = "$3" ]; then pass; else fail "$1: wanted is" "$2" "but it gives" "$3"; fi
}

# text_of NAME FILE: sets the variable of this name to the text of a file. It starts no program, and neither do the functions below: if many checks run
# side by side a program may fail for want of memory, and a right text would be reported as a wrong one.
text_of() { IFS= read -r -d '' "$1" <"$2"; }

# Whether a line of a text ends with a blank.
has_blank_ends() { [[ $1$'\n' == *' '$'\n'* ]]; }

# Builds orc_stress, which runs programs on many workers, if it isn't built yet. Sets `storms` to its path.
need_storms() {
    storms=$top/crates/orc_stress/out/orc_stress
    if [ ! -x "$storms" ]; then (cd "$top/crates/orc_stress" && rt run -- 1) >/dev/null 2>&1; fi
    if [ ! -x "$storms" ]; then
        echo "the program isn't built: there is no $storms" >&2
        exit 1
    fi
}

# Builds orc_replay, which replays journals by calls of a ledger and of a book, if it isn't built yet. Sets `replays` to its path.
need_replays() {
    replays=$top/crates/orc_replay/out/orc_replay
    if [ ! -x "$replays" ]; then (cd "$top/crates/orc_replay" && rt run -- ledger a b c) >/dev/null 2>&1; fi
    if [ ! -x "$replays" ]; then
        echo "the program isn't built: there is no $replays" >&2
        exit 1
    fi
}

# The last line, 'N passed, M failed', and the status.
finish() {
    echo "$passed passed, $failed failed"
    [ "$failed" = 0 ]
}

# What the tests in Bash share. They run in the repository's root, with a temporary folder $room that is removed at the end.
set -euo pipefail
unset CDPATH
umask 022
root=$(cd "$(dirname "$(readlink -f "${BASH_SOURCE[0]}")")/.." && pwd -P)
cd "$root"
room=$(mktemp -d)
trap 'rm -rf "$room"' EXIT
subject=$(basename "$0")

wrong() {
    printf '%s: WRONG: %s\n' "$subject" "$*" >&2
    exit 1
}

# run STATUS COMMAND..: runs the command and sees that it ends with the status. What it prints is kept in $room/out and $room/err.
run() {
    local due=$1 status=0
    shift
    "$@" >"$room/out" 2>"$room/err" || status=$?
    [ "$status" -eq "$due" ] || wrong "'$*' ended with status $status, and $due is due; it said: $(head -c 600 "$room/err")"
}

# out FILE, out_is TEXT: the last command printed exactly this; quiet: it said nothing on stderr; said TEXT..: it said each of these there.
out() { cmp "$1" "$room/out" || wrong "not the output that is due"; }
out_is() { [ "$(cat "$room/out")" = "$1" ] || wrong "printed '$(head -c 600 "$room/out")', and '$1' is due"; }
quiet() { [ ! -s "$room/err" ] || wrong "said on stderr: $(head -c 600 "$room/err")"; }
said() {
    local text
    for text; do grep -qF -- "$text" "$room/err" || wrong "said '$(head -c 600 "$room/err")', and '$text' is due"; done
}

tried() { printf '%s: %s\n' "$subject" "$*"; }

# The status that is due for a listing, by its last line.
status_of() { # FILE
    case $(tail -n 1 "$1") in none) echo 1 ;; refused*) echo 2 ;; *) echo 0 ;; esac
}

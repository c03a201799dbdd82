#!/usr/bin/env bash
# Shows each line of a trace with its replies: line => reply. Takes a trace, else the first sample, whose words are in
# its first line as `# envy run --rows 8`; a trace without such a line is answered by run.
set -eu
top=$(cd "$(dirname "$0")/.." && pwd)
trace=${1-$top/examples/first.trace}
if ! [ -f "$trace" ] || ! [ -r "$trace" ]; then
    echo "demo: $trace is no file that can be read" >&2
    exit 1
fi
words=()
read -r -a words < <(sed -n '1s/^# envy //p' "$trace") || true
[ "${#words[@]}" -gt 0 ] || words=(run)
status=0
replies=$("${ENVY-$top/envy}" "${words[@]}" <"$trace") || status=$?
awk -v replies="$replies" '
    BEGIN { count = split(replies, reply, "\n") }
    NF == 0 || $1 ~ /^#/ { print; next }
    at >= count { printf "%-24s => (no reply)\n", $0; exit }
    { told = reply[++at]; if (told == "lost" && at < count) told = told ", " reply[++at]; printf "%-24s => %s\n", $0, told }
' "$trace"
exit "$status"

#!/usr/bin/env bash
# How long a log of 1,000,000 operations takes, of one execution that is stopped again and again, and whether the
# next operation is refused.
# Use: benches/full_log.sh [PATH-TO-BATCHCTL]
set -eu
cd "$(dirname "$0")/.."
program=${1:-crates/batchctl/out/batchctl}
folder=$(mktemp -d)
trap 'rm -rf "$folder"' EXIT
python3 - "$folder/input" <<'PY'
import sys
with open(sys.argv[1], "w") as out:
    out.write('{"jobs":[{"id":"a","elements":[{"kind":"step","id":"s","batchlet":{"ref":"ok"}}]}]}\n')
    out.write('{"do":"start","by":1,"at":0,"job":"a"}\n{"do":"claim","by":1,"at":0}\n')
    out.write('{"do":"stop","by":1,"at":0,"execution":1}\n' * 999_999)
    out.write('{"ask":"status_counts"}\n')
PY
begin=$(date +%s.%N)
"$program" script < "$folder/input" > "$folder/output"
end=$(date +%s.%N)
python3 -c "print('1,000,000 operations: %.1f s' % ($end - $begin))"
accepted=$(grep -c '^{"done":true}$' "$folder/output")
behind=$(tail -n 2 "$folder/output")
wanted='{"refused":"RepositoryFull"}
{"counts":{"STOPPING":1}}'
[ "$accepted" = 999998 ] && [ "$behind" = "$wanted" ] && echo "a full log refuses the next operation" || { echo "answered otherwise"; exit 1; }

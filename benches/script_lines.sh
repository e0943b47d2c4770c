#!/usr/bin/env bash
# Lines per second and write calls of `batchctl script` on 300,000 lines that are answered BadLine or
# JobStartException. Beside it a plain Rust program over serde_json's Value would be the yardstick.
# Use: benches/script_lines.sh [PATH-TO-BATCHCTL]
set -eu
cd "$(dirname "$0")/.."
program=${1:-crates/batchctl/out/batchctl}
folder=$(mktemp -d)
trap 'rm -rf "$folder"' EXIT
python3 - "$folder/input" <<'PY'
import sys
with open(sys.argv[1], "w") as out:
    out.write('{"jobs":[{"id":"a","elements":[{"kind":"step","id":"s","batchlet":{"ref":"ok"}}]}]}\n')
    for number in range(150_000):
        out.write('{"do":"start","by":%d,"at":%d,"job":"zz"}\n' % (number % 7 + 1, number))
        out.write('{"do":"start","by":0,"at":%d,"job":"a","x":[1,2,3]}\n' % number)
PY
for run in 1 2 3; do
  begin=$(date +%s.%N)
  "$program" script < "$folder/input" > "$folder/output"
  end=$(date +%s.%N)
  python3 -c "print('run $run: %.3f s, %.0f lines a second' % ($end - $begin, 300000 / ($end - $begin)))"
done
echo "replies: $(wc -l < "$folder/output")"
if command -v strace >/dev/null 2>&1; then
  strace -f -c -e trace=read,write -o "$folder/calls" "$program" script < "$folder/input" > /dev/null
  awk '$NF == "read" || $NF == "write" { print $NF " calls: " $4 }' "$folder/calls"
fi

#!/usr/bin/env bash
# How long `batchctl script` takes to read and check a catalogue of N jobs of 1,000 elements each, nested to depth 16,
# each list a chain of `next` targets. 256 jobs come close to the greatest line, 16,777,216 bytes.
# Use: benches/catalogue_check.sh [JOBS..]
set -eu
cd "$(dirname "$0")/.."
program=crates/batchctl/out/batchctl
line=$(mktemp)
trap 'rm -f "$line"' EXIT
for jobs in ${@:-10 20 40 80 160 256}; do
  python3 - "$jobs" > "$line" <<'PY'
import json, sys

DIGITS = "0123456789abcdefghijklmnopqrstuvwxyz"
numbers = iter(())

def name():
    number = next(numbers)
    return DIGITS[number // 36] + DIGITS[number % 36]

# A chain of so many steps, behind the flow that stands first, if there is one.
def chain(count, first=None):
    elements = [] if first is None else [first]
    elements += [{"kind": "step", "id": name(), "batchlet": {"ref": "r"}} for _ in range(count)]
    for one, other in zip(elements, elements[1:]):
        one["next"] = other["id"]
    return elements

# 10 steps in fifteen flows, one inside the other, each with 65 steps behind it: 1,000 elements.
def job(number):
    global numbers
    numbers = iter(range(1000))
    inside = chain(10)
    for _ in range(15):
        inside = chain(65, {"kind": "flow", "id": name(), "elements": inside})
    return {"id": str(number), "elements": inside}

json.dump({"jobs": [job(number) for number in range(int(sys.argv[1]))]}, sys.stdout, separators=(",", ":"))
PY
  begin=$(date +%s.%N)
  "$program" script < "$line"
  end=$(date +%s.%N)
  python3 -c "print('%7d elements, %8d bytes: %.3f s, %.2f ms a job' % ($jobs * 1000, $(wc -c < "$line"), $end - $begin, ($end - $begin) / $jobs * 1000))"
done

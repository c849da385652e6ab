#!/bin/sh
# Times rounds of 64 decisions, by a policy with 64 names and 256 rules of which the last matches. Build the program
# first: `rt ci mq_bench`, or `rt run` in its crate. A count may be given.
set -e
cd "$(dirname "$0")/.."
program=crates/mq_bench/out/mq_bench
[ -x "$program" ] || { echo "no $program: build it first" >&2; exit 2; }
count=${1:-10000}
start=$(date +%s%N)
"$program" policy "$count"
end=$(date +%s%N)
echo "policy: $(((end - start) / count / 64)) ns each, $((64 * count)) of them"

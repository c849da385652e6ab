#!/usr/bin/env bash
# Times ten million turns of DATA both ways over a hundred live streams.
# The program is built by `rt run -- streams 1` in crates/mq_bench.
set -eu
cd "$(dirname "$0")/../crates/mq_bench"
time out/mq_bench streams 10000000

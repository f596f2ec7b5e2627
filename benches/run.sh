#!/bin/sh
# Builds the library and the benchmark and runs it: benches/run.sh [closings a round] [rounds]
set -eu
cd "$(dirname "$0")/.."
(cd crates/exports && rt lib)
mkdir -p benches/out
g++ -std=c++17 -O3 -Wall -Wextra -o benches/out/closing benches/closing.cpp crates/exports/out/libexports.a
exec benches/out/closing "$@"

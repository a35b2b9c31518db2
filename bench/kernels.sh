#!/usr/bin/env bash
# Times the kernel, encoding and decoding by several workers, and `put` and `get` of 64 MiB, beside other programs, in turn. It prints
# a table and draws its ratios: kernels.sh [TURNS [DRAWING]]. bench/README.md says what it means.
set -eu
cd "$(dirname "$0")/.."
program=$PWD/crates/nccloud/out/nccloud
timer=$PWD/crates/nc_bench/out/nc_bench
(cd crates/nccloud && rt run -- a,b,c,d get </dev/null) >/dev/null 2>&1 || [ -x "$program" ]
(cd crates/nc_bench && rt run) >/dev/null 2>&1 || [ -x "$timer" ]
drawing=${2:-bench/out/ratios.svg}
mkdir -p "$(dirname "$drawing")"
scratch=$(mktemp -d)
trap 'rm -rf "$scratch"' EXIT
python3 bench/kernels.py "$program" "$timer" "$scratch" "${1:-5}" "$drawing"

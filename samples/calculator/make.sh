#!/usr/bin/env bash
# Builds the desk calculator by the separate commands, in the folder `out` beside this script, and runs it over its
# standard input: over the text of `input` it prints that of `output`.
set -euo pipefail
cd "$(dirname "$0")"
mkdir -p out
cp ./*.i out/
cd out
pawc=../../../pawc
modules='main ops stack'
for module in $modules; do "$pawc" phase1 "$module"; done
"$pawc" analyse
for module in $modules; do "$pawc" phase2 "$module"; done
"$pawc" link
exec "$pawc" run

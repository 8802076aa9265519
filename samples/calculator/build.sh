#!/usr/bin/env bash
# Builds the desk calculator by `pawc build`, in the folder `out/built` beside this script, and runs it over its standard
# input: over the text of `input` it prints that of `output`. What `build` tells goes to standard error.
set -euo pipefail
cd "$(dirname "$0")"
mkdir -p out/built
cp ./*.i out/built/
cd out/built
pawc=../../../../pawc
"$pawc" build >&2
exec "$pawc" run

#!/usr/bin/env bash
# Runs each script of this folder one behind another, and tells at the end which ran, which cannot run here and why, and
# which failed. With the word `small` all sizes are small and programs are built without proof, so that it is seen in
# some minutes whether the scripts run; their figures tell nothing then. Usage: bench/all.sh [small]
set -uo pipefail
bench=$(cd "$(dirname "$0")" && pwd)
log=$(mktemp)
trap 'rm -f "$log"' EXIT
summary=
failed=0
for script in "$bench"/*.sh "$bench/checks.py" "$bench/cruns.py" "$bench/cpps.py"; do
    name=$(basename "$script")
    case $name in all.sh | common.sh | quick.sh) continue ;; esac
    case $name in
        *.py) command=(python3 "$script") ;;
        *) command=(bash "$script" "$@") ;;
    esac
    echo "== $name"
    begin=$SECONDS
    "${command[@]}" 2>&1 | tee "$log"
    status=${PIPESTATUS[0]}
    case $status in
        0) told="ran" ;;
        77) told=$(grep '^cannot run: ' "$log") ;;
        *) told="failed with status $status" && failed=1 ;;
    esac
    summary+="$name: $told, $((SECONDS - begin)) s"$'\n'
done
echo "== summary"
printf '%s' "$summary"
exit $failed

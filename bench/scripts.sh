#!/usr/bin/env bash
# Times scripts that are hard on the timers beside `long.sh 8`, each with the program that ../srm builds: user seconds, the least of
# three, and how many times as long as `long.sh 8`.
set -euo pipefail
cd "$(dirname "$0")"
../srm build
program=../crates/srm_main/out/srm_main
folder=$(mktemp -d)
trap 'rm -r "$folder"' EXIT
TIMEFORMAT=%U

# The least user time of three runs of a script.
seconds() {
    for _ in 1 2 3; do
        { time "$program" world <"$folder/script" >/dev/null; } 2>&1
    done | sort -n | head -1
}

./long.sh 8 >"$folder/script"
long=$(seconds)
printf '%-10s %6.2f s\n' 'long.sh 8' "$long"
for kind in asks fixes batches ticks repairs; do
    ./slow.sh "$kind" >"$folder/script"
    awk -v kind="$kind" -v took="$(seconds)" -v long="$long" \
        'BEGIN { printf "%-10s %6.2f s, %.1f times as long\n", kind, took, took / long }'
done

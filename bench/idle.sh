#!/bin/sh
# How much memory a live member holds that has nothing to do, in KiB: once it has begun, and each minute since. It turns nearly a hundred
# times a second, so 100,000 turns take 17 to 18 minutes. Usage: ./idle.sh [MINUTES]: 17 minutes if left out.
set -u
here=$(CDPATH='' cd -- "$(dirname -- "$0")" && pwd) || exit 1
srm=${SRM:-"$here/../crates/srm_main/out/srm_main"}
minutes=${1:-17}
# The program is proved and built first, unless SRM names one.
[ -n "${SRM-}" ] || "$here/../srm" build || exit
folder=$(mktemp -d) || exit 1
mkfifo "$folder/input" || exit 1

# The member's input stays open for as long as this runs.
"$srm" node --session 7 --me 0 --live 127.0.0.1:47110 127.0.0.1:47111 <"$folder/input" >/dev/null 2>&1 &
member=$!
exec 3>"$folder/input"
trap 'kill "$member" 2>/dev/null; rm -rf "$folder"' EXIT

held() {
    sed -n 's/^VmRSS:[^0-9]*\([0-9]*\) kB$/\1/p' "/proc/$member/status"
}

sleep 2
echo "at first: $(held) KiB"
minute=1
while [ "$minute" -le "$minutes" ]; do
    sleep 60
    echo "minute $minute: $(held) KiB"
    minute=$((minute + 1))
done

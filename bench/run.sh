#!/usr/bin/env bash
# Compares the reader with a plain one in Python and a plain one in C, on the lists given, or on
# Debian's list (package usb.ids) and a made-up one of 50 MB. Prints megabytes a second, their
# ratios, and how much memory reading in pieces takes as a multiple of the text.
set -eu
here=$(cd "$(dirname "$0")" && pwd)
work=$(mktemp -d)
trap 'rm -rf "$work"' EXIT

times=${TIMES:-7}
(cd "$here/../crates/usbids_bench" && rt run > /dev/null)
program="$here/../crates/usbids_bench/out/usbids_bench"
cc -O2 -o "$work/plain_reader" "$here/plain_reader.c"
cc -O2 -o "$work/peak" "$here/peak.c"

lists=("$@")
if [ ${#lists[@]} -eq 0 ]; then
    real=/usr/share/misc/usb.ids
    if [ -e "$real" ]; then
        lists+=("$real")
    else
        echo "Debian's list is not here: apt-get install usb.ids"
    fi
    python3 "$here/made_up_list.py" 50000000 > "$work/made_up.ids"
    lists+=("$work/made_up.ids")
fi

# the best of the runs, in microseconds
best() { awk -v what="$1" '$1 == what && (low == "" || $2 < low) { low = $2 } END { print low }'; }

for list in "${lists[@]}"; do
    bytes=$(wc -c < "$list")
    "$program" "$list" "$times" > "$work/ours"
    ours=$(best read < "$work/ours")
    written=$(best write < "$work/ours")
    plain_c=$("$work/plain_reader" "$list" "$times" | best read)
    plain_python=$(python3 "$here/plain_reader.py" "$list" 2 | best read)
    memory=$("$work/peak" "$program" "$list" 0 | tail -n 1)
    awk -v list="$list" -v bytes="$bytes" -v ours="$ours" -v written="$written" -v c="$plain_c" -v py="$plain_python" -v memory="$memory" 'BEGIN {
        printf "%s: %d bytes\n", list, bytes
        printf "  read %.0f MB/s, %.2f of C, %.1f times Python\n", bytes / ours, c / ours, py / ours
        printf "  C %.0f MB/s, Python %.1f MB/s\n", bytes / c, bytes / py
        printf "  write %.0f MB/s\n", bytes / written
        printf "  read in pieces: at most %.1f times the text in memory\n", memory / bytes
    }'
done

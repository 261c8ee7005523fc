#!/usr/bin/env bash
# Reads Debian's list of USB numbers whole, writes it, and reads again what was written.
# Needs the package usb.ids, or takes the path of a list.
set -eu
list=${1:-/usr/share/misc/usb.ids}
if [ ! -e "$list" ]; then
    echo "the list $list is not here: apt-get install usb.ids"
    exit 0
fi
cd "$(dirname "$0")/../../crates/usbids_bench"
rt run > /dev/null
answer=$(out/usbids_bench "$list")
echo "$answer"
grep -q 'written and read again: the same' <<< "$answer"

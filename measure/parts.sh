#!/usr/bin/env bash
# Seconds of processor time, of the program and of the system for it, for work of parts of an endpoint,
# each after its equal in std:
#   hash, bins      a million inserts into a hash map; a million receives that are posted and met by a
#                   message each, every pair of a tag of its own, with 8, 1,000 and all of the receives
#                   posted ahead of the messages
#   set, window     a million message numbers in falling order into a hash set; heard by a window
#   copy, send      16 MiB, 64 times: copied in segments; made into packets
#   write, land     16 MiB, 64 times, in segments in a scattered order: written over a vector; landing
#   queue, owed     a million answers to 16 lives into a queue and out of it; owed and taken
# A first word is another count than a million, a second another than 64.
# The program is built first where it isn't there; only a proved program is built.
set -eu
cd "$(dirname "$0")/../crates/rdm_measure"
count=${1:-1000000}
messages=${2:-64}
[ -x out/rdm_measure ] || rt run -- bins 1000 8 >/dev/null
TIMEFORMAT='%U %S'
for work in "hash $count" "bins $count 8" "bins $count 1000" "bins $count $count" \
    "set $count" "window $count" "copy $messages" "send $messages" \
    "write $messages" "land $messages" "queue $count" "owed $count"; do
    # shellcheck disable=SC2086
    seconds=$({ time out/rdm_measure $work >/dev/null; } 2>&1)
    # shellcheck disable=SC2086
    printf '%-24s %6s %6s\n' "$work" $seconds
done

#!/bin/sh
# What the gate costs: the processor minutes of each crate's own proof, of its tests and of its edits.
#
# usage: measure/gate.sh [NAME..] > table.md
#
# Runs `rt ci --anew` in a clean copy of the last commit, so that all is proved and tried from nothing. What
# earlier runs kept on this machine is not read, and what this run passes is kept beside it. With names it does
# the same for those crates and the ones below them, which is not the gate. Nothing else should run meanwhile:
# processor time is counted and not the clock's, but processes that share a cache slow each other down.
#
# What rt says goes to standard error as it comes. The table (Markdown), the wall time and rt's last line go to
# standard output, and the exit status is rt's own. The whole takes over an hour, a few small crates some minutes.
set -eu
here=$(cd "$(dirname "$0")" && pwd)
room=$(mktemp -d)
trap 'rm -rf "$room"' EXIT
trap 'exit 130' INT
trap 'exit 143' TERM
git clone -q "$here/.." "$room/repository"
cd "$room/repository"
status=0
python3 "$here/gate.py" "$@" || status=$?
exit "$status"

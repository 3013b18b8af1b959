#!/usr/bin/env bash
# bash edits_by_hand/try.sh NAME
# Tries the edits of a crate that the gate leaves out, since they would prove a dear crate once more: each must be refused. It works on a copy of
# what is committed, and takes as long as the proof of the crate, and of those below it that this machine has not kept.
set -e
[ -n "$1" ] || { echo "usage: bash edits_by_hand/try.sh NAME" >&2; exit 2; }
top=$(cd "$(dirname "$0")/.." && pwd)
ls "$top/edits_by_hand/$1"/*.edit >/dev/null
copy=$(mktemp -d)
trap 'rm -rf "$copy"' EXIT
git -C "$top" archive HEAD | tar -x -C "$copy"
mkdir -p "$copy/crates/$1/must-fail"
cp "$top/edits_by_hand/$1"/*.edit "$copy/crates/$1/must-fail/"
cd "$copy"
rt ci "$1"

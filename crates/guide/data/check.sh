#!/usr/bin/env bash
# Runs every command that the documents show, and each wrong and mended line of their tables, and tells what differs.
# By hand, on a built program:   crates/guide/data/check.sh crates/guide/out/guide
set -euo pipefail
built=$(realpath "${1:?the built program guide}")
cd "$(dirname "$(realpath "$0")")"
trap 'rm -f row.txt ./*.img ./*.rte ./*.script' EXIT
"$built" GUIDE.md */README.md ../../../README.md

#!/usr/bin/env bash
# That `OutOfMemory` is made of a refused allocation, and of nothing else. Its room takes it from the
# `AllocError` and `AllocFailed` of std and of the libraries, which any code can write: so no other
# line of a source names them, but those of a conversion from what std gave. Nor does one make a
# `fmt::Error`, of which std makes an `AllocError` where a text grows: the one file that writes a
# text by std's trait may name its type in the head of that function, and has no error to make there.
# The lines that do are told, and it fails.
set -u
cd "$(dirname "$0")/.."
sources() { grep -rn "$@" crates/*/src --include='*.rt' | grep -v '^crates/out_of_memory/src/'; }
shown=crates/script/src/fault.rt
given=':(use std::alloc::AllocFailed;|impl<T: Drop> From<AllocFailed<T>> for \w+ \{'
given+='|    fn from\(error: AllocFailed<T>\) -> \w+ \{)$'
found=$(
  sources -E '\b(AllocError|AllocFailed|SpawnError)\b' | grep -vE "$given"
  # Of std's `fmt`, the traits alone, but in that one file.
  sources -E '\bfmt\b' | grep -vE ':use std::fmt::(Display|Write);$' | grep -v "^$shown:"
  grep -nE '\bfmt\b|\bErr\b|\bdefault\b' "$shown" |
    grep -vE ':(use std::fmt::\{self, Display, Formatter, Write\};|    fn fmt<.*\) -> .*fmt::Error> \{)$'
)
if [ -n "$found" ]; then
  echo "$found"
  echo 'memory_error: out_of_memory alone makes the error of want of memory'
  exit 1
fi

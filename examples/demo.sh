#!/bin/sh
# Reduces trace T both ways with a filter of 2 pages, replays the three files through a cache of 2 pages, and shows their lines side by side.
# Fails if the fetch lines differ.
set -eu
cd "$(dirname "$0")/.."
out=$(mktemp -d)
trap 'rm -rf "$out"' EXIT

# Settings: tag, length in two bytes, then mode and filter size, or cache size; low byte first.
reduced() { { printf '\021\003\000%b\002\000' "$1"; cat examples/T.trace; } | examples/run target/bin/reduce; }
replayed() { { printf '\020\002\000\002\000'; cat "$1"; } | examples/run target/bin/replay; }

cp examples/T.trace "$out/whole"
reduced '\001' >"$out/fastslim"
reduced '\002' >"$out/demand"
for name in whole fastslim demand; do
    replayed "$out/$name" >"$out/$name.lines"
    head -n -2 "$out/$name.lines" >"$out/$name.fetches"
    { printf '%s: %s bytes, ' "$name" "$(wc -c <"$out/$name")"; examples/run target/bin/show <"$out/$name"; echo; cat "$out/$name.lines"; } >"$out/$name.column"
done

pr -m -t -w 180 "$out/whole.column" "$out/fastslim.column" "$out/demand.column"
cmp "$out/whole.fetches" "$out/fastslim.fetches"
cmp "$out/whole.fetches" "$out/demand.fetches"
printf '\nThe fetch lines of the three are the same.\n'

#!/bin/sh
# References of real programs. Records the memory references of three ordinary commands with valgrind's lackey tool and converts them to traces of pages of
# 4 KiB, stores and modifies as writes: several files for each recording, since one holds 1,000,000 items. Reduces the files in both modes at several filter
# sizes, and compares every line, of the tally only the transfers since its number of items is another, of
# - the replay of each reduced file with that of the file it was made from;
# - the replay of the reduced files' join with LRU on the whole recording, as `whole` does it, a program that has nothing of the proved library.
# Prints a table for docs/RESULTS.md, and fails if any two differ. Needs valgrind, and the tools built (README.md). No name here has a space: lists of
# words are split where they are used.
set -eu
cd "$(dirname "$0")/.."
tool=$PWD/rust/target/release/shkembruq whole=$PWD/rust/target/release/whole
work=$(mktemp -d)
trap 'rm -rf "$work"' EXIT
cd "$work"

recorded() { # NAME COMMAND..: the command's references, as traces of at most 1,000,000 items
    name=$1
    shift
    # On aarch64 an exclusive store after an exclusive load fails for as long as the tool writes its log between the two; the hint has both done in another way.
    valgrind --sim-hints=fallback-llsc --tool=lackey --trace-mem=yes --log-file="$name.log" "$@" >/dev/null
    "$tool" convert --lackey "$name.log" -o "$name" >/dev/null
    rm "$name.log"
}

parts() { # NAME: the recording's files in their order; there is one or there are NAME.0, NAME.1 and so on
    [ ! -f "$1" ] || echo "$1"
    number=0
    while [ -f "$1.$number" ]; do
        echo "$1.$number"
        number=$((number + 1))
    done
}

nth() { # NUMBER WORD..: the word with this number, from 0; after the last comes the first again
    shift $(($1 % ($# - 1) + 1))
    echo "$1"
}

but_the_tally() { # COMMAND..: what it prints, of the tally only the transfers; fails where the command does
    "$@" >all && sed 's/^items .* transfers /transfers /' all
}

fetch_lines() { # FILE: how many there are; after them come the transfers and the pages
    echo $(($(wc -l <"$1") - 2))
}

written_lines() { # FILE: how many of its fetch lines tell of a written page
    awk '/^[0-9]/ && $4 == 2' "$1" | wc -l
}

same() { # WHAT: fails unless the files one and two are the same
    cmp -s one two || { echo "$1: the lines differ" >&2; exit 1; }
}

compare_part() { # FILE MODE FILTER OUT: reduces a file and compares its replays
    "$tool" reduce --mode "$2" --filter "$3" "$1" -o "$4" >row
    kept=$((kept + $(sed 's/.* items //' row))) references=$((references + $(sed 's/.* references \([0-9]*\) .*/\1/' row)))
    for cache in "$3" 4096; do
        but_the_tally "$tool" replay --cache "$cache" "$1" >one
        but_the_tally "$tool" replay --cache "$cache" "$4" >two
        same "$1 $2 $3 at cache size $cache"
        of_files=$((of_files + 1)) file_fetches=$((file_fetches + $(fetch_lines one)))
    done
}

join_all() { # FILE..: their join, the same bytes from the left and from the right
    cp "$1" joined
    [ $# -eq 1 ] || "$tool" join "$@" -o joined >/dev/null
    reversed=
    for file in "$@"; do reversed="$file $reversed"; done
    rm -f right
    for file in $reversed; do
        if [ -f right ]; then "$tool" join "$file" right -o next >/dev/null; else cp "$file" next; fi
        mv next right
    done
    cmp joined right
    "$tool" check joined | grep -q " references $references items $kept\$" || { echo "the join does not have all items" >&2; exit 1; }
}

compare_join() { # NAME FILTER: compares the replays of the join with the whole recording's run
    for cache in "$2" $(($2 + $2 / 2)) 4096; do
        [ -f "whole.$1.$cache" ] || but_the_tally "$whole" "$cache" $(parts "$1") >"whole.$1.$cache"
        cp "whole.$1.$cache" one
        but_the_tally "$tool" replay --cache "$cache" joined >two
        same "the join of $1 at cache size $cache"
        of_joins=$((of_joins + 1)) whole_fetches=$((whole_fetches + $(fetch_lines one))) whole_written=$((whole_written + $(written_lines one)))
    done
}

compared() { # NAME MODES FILTERS: one row of the table; each file takes the next mode and filter
    kept=0 references=0 files=0 largest=0 of_files=0 file_fetches=0 of_joins=0 whole_fetches=0 whole_written=0 reduced=
    for part in $(parts "$1"); do
        mode=$(nth $files $2) filter=$(nth $files $3)
        compare_part "$part" "$mode" "$filter" "reduced.$files"
        reduced="$reduced reduced.$files" files=$((files + 1))
        [ "$filter" -le "$largest" ] || largest=$filter
    done
    join_all $reduced
    compare_join "$1" "$largest"
    percent=$(awk "BEGIN { printf \"%.2f\", 100 * $kept / $references }")
    echo "| \`$1\` | $2 | $3 | $files | $references | $kept | $percent | $of_files | $file_fetches | $of_joins | $whole_fetches | $whole_written |"
}

awk 'BEGIN { for (i = 1; i <= 800; i++) print (i * 7919) % 10007, "line", i }' >text
recorded sort sort text
recorded gzip gzip -c text
recorded awk awk '{ s[$1 % 97] += $3 } END { for (k in s) print k, s[k] }' text

echo '| command | mode | filter | files | references | kept | percent | files: replays | their fetch lines, all the same | join: replays | fetch lines of the whole recording, all the same | written pages evicted there |'
echo '|---|---|---|---|---|---|---|---|---|---|---|---|'
for name in sort gzip awk; do
    for filter in 16 64 256 1024; do
        for mode in fastslim demand; do compared $name $mode "$filter"; done
    done
    compared $name 'demand fastslim' '24 32 16'
done

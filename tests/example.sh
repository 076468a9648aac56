#!/usr/bin/env bash
# The names that the library that ./build makes needs from outside; the example of the guide, examples/find.c, compiled against it, and run
# on the sample rulings; and the commands of README.md, which must print what it says.
set -u
cd "$(dirname "$0")/.." || exit 2
work=$(mktemp -d)
trap 'rm -rf "$work"' EXIT
passed=0
failed=0

count() { # CASE STATUS
    if [ "$2" -eq 0 ]; then
        passed=$((passed + 1))
        echo "example: $1: as expected"
    else
        failed=$((failed + 1))
        echo "example: $1: failed"
    fi
}

# Compares what the example printed, and its status.
compare() { # CASE STATUS EXPECTED-STATUS EXPECTED
    printf '%b' "$4" > "$work/expected"
    [ "$2" -eq "$3" ] && cmp "$work/out" "$work/expected"
    count "$1" $?
}

# Runs the example on the ruling with a query.
run() { # CASE QUERY STATUS EXPECTED
    printf '%b' "$2" > "$work/query"
    "$work/find" samples/ruling.out samples/ruling.widths "$work/query" > "$work/out"
    compare "$1" $? "$3" "$4"
}

# Runs it on the second ruling with a query and a family list.
run_by_families() { # CASE QUERY FAMILIES STATUS EXPECTED
    printf '%b' "$2" > "$work/query"
    printf '%b' "$3" > "$work/families"
    "$work/find" samples/ruling-2.out samples/ruling.widths "$work/query" "$work/families" > "$work/out"
    compare "$1" $? "$4" "$5"
}

# What a caller without a C library has to bring: `nm` names each undefined name once an archive member.
[ "$(nm -u target/lib/libmrkvandel.a | sed -n 's/^ *U //p' | sort -u)" = memset ]
count 'the library needs memset alone from outside' $?

cc -std=c11 -pedantic -Wall -Wextra -Werror -Iinclude examples/find.c target/lib/libmrkvandel.a -o "$work/find"
count 'compiles without a warning' $?
village="glyph=V\nglyph=a\nglyph=l\nglyph='e\nglyph=n\nglyph=o\nglyph=u\n"
run 'an accented village' "$village" 0 \
    'record 95, page 1\nrecord 145, page 1\nrecord 1519, page 2\nrecord 1626, page 2\n4 hits, refusal 0 at 0\n'
run 'a word that does not occur' 'glyph=f\nglyph=i\nglyph=e\nglyph=l\nglyph=d\n' 0 '0 hits, refusal 0 at 0\n'
run 'a wrong query' 'glyph=f\ngap=any\n' 1 '0 hits, refusal 12 at 8\n'
run_by_families 'a village under other names' "$village" "name='e\nsame=u0065_0301\nsame=\0351\n" 0 \
    'record 87, page 1\nrecord 140, page 1\nrecord 499, page 1\nrecord 1150, page 1\nrecord 1372, page 2\n5 hits, refusal 0 at 0\n'
run_by_families 'an empty family list' "$village" '' 0 '0 hits, refusal 0 at 0\n'
run_by_families 'a wrong family list' "$village" "name='e\n" 1 '0 hits, refusal 14 at 8\n'
"$work/find" samples/ruling.out samples/ruling.widths "$work/missing" 2> "$work/said"
[ $? -eq 2 ] && grep -q missing "$work/said"
count 'a missing file' $?

# The indented lines of a section of README.md.
lines() { # HEADING
    awk -v heading="## $1" '$0 == heading { on = 1; next } /^## / { on = 0 } on && /^    / { print substr($0, 5) }' README.md
}

search=$(lines 'Two commands' | sed -n 's|^\./build && ||p')
[ "$(bash -c "$search")" = "$(lines 'Two commands' | grep -E '^(==>|hit|found) ')" ] && [ -n "$search" ]
count "README's first command" $?
commands=$(lines 'From C' | grep -E '^(cc|printf|target/)')
[ "$(bash -e -c "$commands")" = "$(lines 'From C' | grep -E '^(record|[0-9]+ hits)')" ] && [ -n "$commands" ]
count "README's commands for C" $?

echo "$passed passed, $failed failed"
[ "$failed" -eq 0 ]

#!/usr/bin/env bash
# The programs, as `rt ci` left each in its crate's out/, under a stack of 8 MiB. Each folder NAME-CASE of programs/ has the words that
# small_NAME is run with, one to a line (`args`), the files that they name, and what it must write on standard output and standard
# error (no file: nothing). The large cases are made here; those that are accepted are held to what the second program prints.
# The programs end with status 0 whatever they print: it says only that none crashed.
set -u
cd "$(dirname "$0")/.." || exit 2
root=$PWD
second=$root/second/target/release/second
work=$(mktemp -d)
trap 'rm -rf "$work"' EXIT
passed=0
failed=0
ulimit -s 8192

# Counts a case: passed where nothing went wrong.
count() { # CASE WHAT-WENT-WRONG
    if [ -z "$2" ]; then
        passed=$((passed + 1))
        echo "programs: $1: as expected"
    else
        failed=$((failed + 1))
        echo "programs: $1: $2"
    fi
}

# Where `rt ci` left a program.
built() { echo "$root/crates/small_$1/out/small_$1"; } # PROGRAM

# Runs a program in a folder and compares with the files that are expected; sets `said` to what went wrong.
run() { # PROGRAM FOLDER STDOUT STDERR WORDS...
    local program folder=$2 out=$3 err=$4 status
    program=$(built "$1")
    shift 4
    [ -x "$program" ] || { said="there is no ${program#"$root/"}"; return; }
    (cd "$folder" && exec "$program" "$@") > "$work/out" 2> "$work/err"
    status=$?
    said=
    cmp -s "$work/out" "$out" || said="standard output differs"
    cmp -s "$work/err" "$err" || said="$said${said:+, }standard error differs: $(head -n 1 "$work/err")"
    [ "$status" -eq 0 ] || said="$said${said:+, }status $status"
}

: > "$work/nothing"
or_nothing() { if [ -f "$1" ]; then echo "$1"; else echo "$work/nothing"; fi; }

for folder in "$root"/tests/programs/*/; do
    folder=${folder%/}
    mapfile -t words < "$folder/args"
    name=$(basename "$folder")
    run "${name%%-*}" "$folder" "$(or_nothing "$folder/stdout")" "$(or_nothing "$folder/stderr")" "${words[@]}"
    count "$name" "$said"
done

# The largest stream that the programs take, 1 MiB with 65,536 records, as many entries and, for `small_find`, as many hits; one byte
# more; a full disk. For `small_glyphs` and `small_find` one record more.
repeat() { yes "$1" | head -n "$2"; }
head='x T ps\nx res 72000 1 1\nx init\np1\nx font 1 TR\nf1\ns10000\n'
large="$work/large"
mkdir "$large"
cp tests/programs/glyphs-sample/{stream,widths} "$large"
echo 'glyph=a' > "$large/query"
{ printf "$head"; repeat h5ca 65536; repeat 'Dt 5' 65531; } > "$large/most"
printf '#%*s\nx stop\n' "$((1048576 - $(wc -c < "$large/most") - 9))" '' >> "$large/most"
{ printf "$head"; repeat h5ca 65537; echo 'x stop'; } > "$large/records"
{ cat "$large/most"; echo; } > "$large/bytes"
reason='records, entries, hits or spelling need more room than lent, or the spelling is over 16,777,216 bytes'
echo 'refused 13 0' > "$work/records"
echo "records: line 1, column 1: $reason" > "$work/records-said"
echo 'bytes: over 1,048,576 bytes, more than this program takes' > "$work/bytes-said"

large_cases() { # PROGRAM LAST-LINE-OF-THE-LARGEST WORDS-BEHIND-THE-STREAM...
    local program=$1 last=$2
    shift 2
    (cd "$large" && "$second" "$program" most "$@") > "$work/most"
    if [ "$(wc -c < "$large/most")" -eq 1048576 ] && [ "$(tail -n 1 "$work/most")" = "$last" ]; then
        run "$program" "$large" "$work/most" "$work/nothing" most "$@"
    else
        said="the case is not made"
    fi
    count "$program-most" "$said"
    run "$program" "$large" "$work/nothing" "$work/bytes-said" bytes "$@"
    count "$program-a-byte-too-many" "$said"
    if [ -w /dev/full ]; then
        said=$( (cd "$large" && "$(built "$program")" most "$@" 2>&1 > /dev/full) )
        case $said in 'standard output: '*) said= ;; *) said="a full disk is not told: $said" ;; esac
        count "$program-full-disk" "$said"
    fi
}

a_record_too_many() { # PROGRAM WORDS-BEHIND-THE-STREAM...
    local program=$1
    shift
    run "$program" "$large" "$work/records" "$work/records-said" records "$@"
    count "$program-a-record-too-many" "$said"
}

large_cases glyphs 'end 65536 65536 1 655335 0 d 0 0 0 0 d 0 0 0 0' widths
a_record_too_many glyphs widths
large_cases find 'found 65536 65536' widths query
a_record_too_many find widths query
large_cases respell 'x s' widths

# A spelling of 4,194,304 bytes, all the room that `small_respell` has; and one of a byte more. A word of 8 glyphs at h from 99,990,000 on
# takes 8 lines of `H` and as many of `c`; the rest is made up by an `x X`.
spelling() { # BYTES
    { printf "$head"; repeat H99990000taaaaaaaa 34920; } > "$work/words"
    { cat "$work/words"; printf 'x X a\nx stop\n'; } > "$large/spelling"
    local rest=$(($1 - $(cd "$large" && "$second" respell spelling widths | wc -c)))
    { cat "$work/words"; printf 'x X a'; head -c "$rest" /dev/zero | tr '\0' a; printf '\nx stop\n'; } > "$large/spelling"
}
spelling 4194304
(cd "$large" && "$second" respell spelling widths) > "$work/whole"
if [ "$(wc -c < "$work/whole")" -eq 4194304 ]; then
    run respell "$large" "$work/whole" "$work/nothing" spelling widths
else
    said="the case is not made"
fi
count respell-a-spelling-of-4194304-bytes "$said"
spelling 4194305
if [ "$(cd "$large" && "$second" respell spelling widths | wc -c)" -eq 4194305 ]; then
    echo "spelling: line 1, column 1: $reason" > "$work/spelling-said"
    run respell "$large" "$work/records" "$work/spelling-said" spelling widths
else
    said="the case is not made"
fi
count respell-a-spelling-of-4194305-bytes "$said"

# A query of 8,192 bytes is read, one of a byte more is 1; a list of 65,537 bytes is 1 too, and is named first.
newlines() { head -c "$1" /dev/zero | tr '\0' '\n'; }
newlines 8192 > "$large/query-most"
newlines 8193 > "$large/query-long"
newlines 65537 > "$large/widths-long"
reason='the stream is over 16,777,216 bytes, the list over 65,536 or the query over 8,192'
echo 'refused 12 0' > "$work/wrong"
echo 'refused 1 0' > "$work/long"
echo 'query-most: line 1, column 1: wrong line in the query, or an empty query' > "$work/wrong-said"
echo "query-long: line 1, column 1: $reason" > "$work/long-said"
echo "widths-long: line 1, column 1: $reason" > "$work/list-said"
run find "$large" "$work/wrong" "$work/wrong-said" stream widths query-most
count find-a-query-of-8192-bytes "$said"
run find "$large" "$work/long" "$work/long-said" stream widths query-long
count find-a-query-of-8193-bytes "$said"
run find "$large" "$work/long" "$work/list-said" stream widths-long query-long
count find-a-long-list-and-query "$said"
run glyphs "$large" "$work/long" "$work/list-said" stream widths-long
count glyphs-a-long-list "$said"
run respell "$large" "$work/long" "$work/list-said" stream widths-long
count respell-a-long-list "$said"

echo "$passed passed, $failed failed"
[ "$failed" -eq 0 ]

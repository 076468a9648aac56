#!/bin/sh
# Makes a width list from groff's font files.
#
#     sh widths.sh FOLDER FONT... > LIST
#
# FOLDER is that of an output device, with its DESC and font files, such as font/devps where groff is
# installed. Each FONT, at most 32, gets a block: the widths of its glyphs with names of one byte, bytes
# rising. Glyphs with longer names stand in no word of a stream, so they need no width.
set -eu
LC_ALL=C
export LC_ALL

if [ $# -lt 2 ] || [ $# -gt 33 ]; then
    echo "usage: sh widths.sh FOLDER FONT... (1 to 32 fonts)" >&2
    exit 2
fi
folder=$1
shift

# What a list cannot hold is said on standard error; the reader then refuses the list as 2, or a word as 9.
awk '$1 == "unitwidth" { print "unitwidth=" $2; found = 1
         if ($2 > 100000) print "widths.sh: unitwidth " $2 " is over 100000" > "/dev/stderr" }
     END { if (!found) exit 1 }' "$folder/DESC"

for font in "$@"; do
    echo "font=$font"
    # behind the line `charset`: NAME, metrics (the width first), ...; metrics of `"` are those of the line before
    awk -v font="$font" 'BEGIN { for (byte = 33; byte < 256; byte++) code[sprintf("%c", byte)] = byte }
         NF == 1 && ($1 == "charset" || $1 == "kernpairs") { in_charset = $1 == "charset"; next }
         !in_charset || NF < 2 { next }
         $2 != "\"" { split($2, metrics, ","); width = metrics[1] }
         $1 in code { widths[code[$1]] = width }
         END {
             for (byte = 33; byte < 256; byte++)
                 if (byte in widths) { print "byte=" byte "\nwidth=" widths[byte]; some = 1 }
             if (!some) print "widths.sh: " font " has no glyph with a name of one byte" > "/dev/stderr"
         }' "$folder/$font"
done

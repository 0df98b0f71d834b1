#!/usr/bin/env bash
# Runs the program `catalogue_program` on its sample and on files made here, at the limits of the scope document (module 8), and compares what it writes.
#
#     tools/try_catalogue.sh
#
# Prints a line for each case and ends with a count. Needs what tools/run_catalogue.sh needs, and python3.
set -eu
. "$(dirname "$0")/program.sh"

build catalogue_program
work=$(mktemp -d)
trap 'rm -rf "$work"' EXIT
passed=0
failed=0

# expect NAME WANTED: runs the program on what stands in $work/in, and compares with a printf format
expect() {
    printf "$2" > "$work/wanted"
    compare "$1"
}

# compare NAME: the same with what stands in $work/wanted
compare() {
    if run catalogue_program "$work/in" > "$work/wrote" && cmp -s "$work/wrote" "$work/wanted"; then
        echo "ok      $1"
        passed=$((passed + 1))
    else
        echo "FAILED  $1: it wrote $(head -c 60 "$work/wrote" | od -An -c | tr -s ' \n' ' ')"
        failed=$((failed + 1))
    fi
}

# on_text NAME TEXT WANTED: both as printf formats
on_text() {
    fresh
    printf "$2" > "$work/in/catalogue.tsv"
    expect "$1" "$3"
}

fresh() {
    rm -rf "$work/in"
    mkdir "$work/in"
}

# letters N: so many letters a
letters() {
    head -c "$1" /dev/zero | tr '\0' a
}

# bytes N: the line of key a and value 1, again and again, N bytes in all
bytes() {
    yes "$(printf 'a\t1')" | head -c "$1"
}

fresh
cp "$root/crates/catalogue_program/data/sample.tsv" "$work/in/catalogue.tsv"
python3 -B "$root/tools/readme.py" listing > "$work/wanted"
compare 'the sample, as README.md shows it'

on_text 'the file of 01' 'b\t3\nab\t7\n' 'ab\t7\nb\t3\n'
on_text 'the last LF absent' 'b\t3\nab\t7' 'ab\t7\nb\t3\n'
on_text 'an empty file' '' ''
on_text 'the last value stays' 'a\t1\nb\t2\na\t0\n' 'a\t0\nb\t2\n'
on_text 'byte order' '\377\t1\na\t2\n\001\t3\nab\t4\n' '\001\t3\na\t2\nab\t4\n\377\t1\n'
on_text 'value 4294967295' 'a\t4294967295\n' 'a\t4294967295\n'
on_text 'value 4294967296' 'a\t1\nb\t4294967296\n' 'refused 9 line 2\n'
on_text 'value 01' 'a\t01\n' 'refused 9 line 1\n'
on_text 'eleven digits' 'a\t10000000000\n' 'refused 9 line 1\n'
on_text 'no number' 'a\t1\nb\t\n' 'refused 9 line 2\n'
on_text 'no TAB' 'a\t1\nb\t2\nc\n' 'refused 9 line 3\n'
on_text 'two TABs' 'a\tb\t1\n' 'refused 9 line 1\n'
on_text 'CR before LF' 'a\t1\r\n' 'refused 9 line 1\n'
on_text 'an empty line' 'a\t1\n\nb\t2\n' 'refused 9 line 2\n'
on_text 'an empty key' 'a\t1\nb\t2\n\t3\n' 'refused 3 line 3\n'
on_text 'an empty key and a broken number' '\t03\n' 'refused 9 line 1\n'

fresh
printf '%s\t1\na\t2\n' "$(letters 2048)" > "$work/in/catalogue.tsv"
expect '2048 records' "a\t2\n$(letters 2048)\t1\n"
printf 'b\t3\n' >> "$work/in/catalogue.tsv"
expect 'the 2049th record' 'refused 4 line 3\n'
printf '%s\t1\n' "$(letters 2049)" > "$work/in/catalogue.tsv"
expect 'a key of 2049 bytes' 'refused 4 line 1\n'
printf '%s\t01\n' "$(letters 2049)" > "$work/in/catalogue.tsv"
expect 'no room and a broken number' 'refused 9 line 1\n'

fresh
bytes 65536 > "$work/in/catalogue.tsv"
expect '65536 bytes' 'a\t1\n'
printf '\n' >> "$work/in/catalogue.tsv"
expect '65537 bytes' 'too long\n'
bytes 70000 > "$work/in/catalogue.tsv"
expect '70000 bytes' 'too long\n'

# keys of one letter, so that the longest has room for all: as many of the longest as are needed, and one of the length that is left
fresh
awk 'BEGIN {
    left = 65537
    for (length_ = 2048; left > 0; length_--) {
        if (left - (length_ + 3) < 0) continue
        if (left - (length_ + 3) > 0 && left - (length_ + 3) < 4) continue
        print length_
        left -= length_ + 3
    }
}' > "$work/lengths"
while read -r n; do printf '%s\t1\n' "$(letters "$n")"; done < "$work/lengths" | head -c 65536 > "$work/in/catalogue.tsv"
sort -n "$work/lengths" | while read -r n; do printf '%s\t1\n' "$(letters "$n")"; done > "$work/wanted"
compare "65536 bytes, the last LF absent: $(wc -c < "$work/wanted" | tr -d ' ') bytes"

fresh
expect 'no file' 'no file\n'
mkdir "$work/in/catalogue.tsv"
expect 'a directory' 'no file\n'

# a write that fails ends the program, and it ends well
fresh
printf 'b\t3\nab\t7\n' > "$work/in/catalogue.tsv"
if run catalogue_program "$work/in" > /dev/full; then
    echo "ok      a full output"
    passed=$((passed + 1))
else
    echo "FAILED  a full output"
    failed=$((failed + 1))
fi

echo "$passed passed, $failed failed"
[ "$failed" -eq 0 ]

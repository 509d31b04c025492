#!/usr/bin/env bash
# FreeTDS by its command line: freetds.sh PORT PACED_PORT. What differs from machine to machine is cut.
ask() {
    printf '%s\ngo\nexit\n' "$3" | TDSVER=$2 timeout 20 tsql -H 127.0.0.1 -p "$1" -U a -P b -o q 2>&1 |
        grep -vE '^(locale|using default charset|$)'
}
for version in 7.2 7.3 7.4 auto; do
    echo "version $version"
    ask "$1" $version 'rows 7 3'
done
echo "version 7.1"
ask "$1" 7.1 'rows 7 3'
for text in 'say hello' 'foo' 'fail 70001' 'begin;commit' 'commit' 'set a 5;get a'; do
    echo "asks $text"
    ask "$1" 7.4 "$text"
done
# A text size of its configuration: FreeTDS sends `set textsize` by itself then.
conf=$(mktemp) || exit 1
trap 'rm -f "$conf"' EXIT
printf '[global]\n\ttext size = 64512\n' >"$conf"
echo "text size 64512"
FREETDSCONF=$conf ask "$1" 7.4 'rows 7 3'

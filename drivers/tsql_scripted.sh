#!/usr/bin/env bash
# FreeTDS's tsql where scripts put it into bad places: tsql_scripted.sh NAME=PORT.. Its `timeout` cancels a request.
conf=$(mktemp) || exit 1
trap 'rm -f "$conf"' EXIT
printf '[global]\n\ttimeout = 1\n' >"$conf"
for word in "$@"; do
    case ${word%%=*} in
        held | crossed) texts=('rows 1 1;rows 5 1;rows 9 1' 'rows 7 1') ;;
        begin_crossed) texts=(begin commit commit) ;;
        # it asks for no begin but by a text
        begin_request_crossed) continue ;;
        cut) texts=('rows 1 1' 'rows 1 9' 'rows 3 1') ;;
        twice) texts=('say twice;rows 1 1' 'rows 7 1' 'rows 9 1') ;;
        split) texts=('rows 1 3;say x;rows 5 1') ;;
        lent) texts=('say lender;rows 1 9') ;;
        early) texts=("say early$(printf '%060000d' 0)" 'rows 7 1') ;;
        # it has no pool
        *) continue ;;
    esac
    echo "${word%%=*}"
    asks() {
        (printf '%s\ngo\n' "$@"; echo exit) |
            FREETDSCONF=$conf TDSVER=7.4 timeout 30 tsql -H 127.0.0.1 -p "${word#*=}" -U a -P b -o q 2>&1
    }
    asks "${texts[@]}"
    # the next who comes
    [ "${word%%=*}" != lent ] || asks 'say borrower'
done

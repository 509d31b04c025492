#!/usr/bin/env bash
# tdsask before a server of real shapes in each bad place: tdsask_real.sh PROGRAM PLACE=PORT..
program=$1
shift
rows='rows 1 1;rows 5 1;rows 9 1'
for place in "$@"; do
    address=127.0.0.1:${place#*=}
    case ${place%%=*} in
        # what is asked first has a connection behind a relay too, which acknowledges what it hasn't sent on
        begin_crossed) words=('get a' --cancel 0 begin commit commit) ;;
        begin_request_crossed) words=('get a' --cancel 0 --begin commit commit) ;;
        commit_crossed) words=(begin --cancel 0 commit 'get a') ;;
        reset_held) words=(--cancel 0 'say borrower' 'get a') ;;
        crossed | held) words=(--cancel 3 "$rows" 'get a') ;;
        cut) words=('rows 7 2' 'rows 1 90' 'get a') ;;
        *) words=("$rows" --begin 'set a 5' --reset 'get a') ;;
    esac
    echo "= ${place%%=*}"
    "$program" "$address" --any "${words[@]}" 2>&1 | sed "s/$address/ADDRESS/"
done

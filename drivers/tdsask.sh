#!/usr/bin/env bash
# tdsask, this repository's client by arguments: tdsask.sh PROGRAM PORT PACED_PORT.
"$1" "127.0.0.1:$2" 'rows 7 3' 'say hello' foo --begin 'set a 5' --commit-begin --reset 'get a'
echo "with a cancel behind two tokens"
"$1" "127.0.0.1:$3" --begin --cancel 2 'rows 0 2;rows 10 2;rows 20 2;rows 30 2;rows 40 2' 'get a'

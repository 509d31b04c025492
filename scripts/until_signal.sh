# For wrappers of a program that has no signals and ends in order with its standard input.

# until_signal PROGRAM WORD..: runs it with a pipe as standard input, closes that at SIGINT, SIGTERM or
# SIGHUP, and ends with the program's own status. Where the wrapper itself is killed, the pipe closes too.
until_signal() {
    local held= served status again interrupted=
    # It is set first: the program may be heard of, and a signal come, before the next line is reached.
    trap 'interrupted=yes; [ -z "$held" ] || exec {held}>&-' INT TERM HUP
    # Ctrl-C reaches all that run in the terminal; the program is to end by its input alone.
    exec {held}> >(trap '' INT HUP && exec "$@")
    served=$!
    [ -z "$interrupted" ] || exec {held}>&-
    wait "$served"
    status=$?
    # A trap ends `wait` with a status of its own, whether the program has ended by then or not. One that
    # was waited for already gives 127.
    while [ -n "$interrupted" ]; do
        interrupted=
        wait "$served"
        again=$?
        [ "$again" = 127 ] || status=$again
    done
    exit "$status"
}

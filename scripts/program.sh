# What the wrappers at the top share. A wrapper sets `here`, the repository's folder, `name`, the
# program's, and `build`, the line that proves and builds it, before it reads this file, and then calls
# `run_program` with its words.
program=$here/crates/$name/out/$name
looks=$here/scripts/first_look.py

tell() {
    echo "$name: $1" >&2
}

# The crates that the program is made of, by crates.txt.
crates() {
    awk -F: '{ sub(/#.*/, "") } NF > 1 { split($1, head, " "); below[head[1]] = $2 }
        END {
            found["'"$name"'"]
            # Each round goes one layer down.
            for (round in below) for (name in found) {
                count = split(below[name], words, " ")
                for (i = 1; i <= count; i++) if (words[i] in below) found[words[i]]
            }
            for (name in found) print name
        }' "$here/crates.txt"
}

# Whether no source of these crates is younger than a file.
is_older() {
    local made=$1 crate covered=("$here/crates.txt")
    shift
    for crate; do
        covered+=("$here/crates/$crate"/{src,specs,proofs})
    done
    [ -z "$(find "${covered[@]}" -newer "$made" -print -quit 2>/dev/null)" ]
}

# Behind a proof and a build `rt` writes NAME.stamp: a sum of all that the program is made from
# (these crates' src, specs and proofs, their lines in crates.txt, the kit), and then the sum of the
# program. So the program must be the one of the stamp, and nothing that the first sum covers may be
# younger than the stamp; that sum itself is rt's own affair. The gate and scripts/fill leave no stamp: then
# nothing may be younger than the program.
is_current() {
    local made=$program
    [ -x "$program" ] || return 1
    if [ -f "$program.stamp" ]; then
        made=$program.stamp
        [ "$(tail -c 64 "$made")" = "$(sha256sum <"$program" | cut -c 1-64)" ] || return 1
    fi
    is_older "$made" $(crates)
}

# A sum of the sources that the program is compiled from, by their places in the repository.
sources_sum() {
    (
        cd "$here" || exit
        for crate in $(crates); do
            find "crates/$crate/src" -type f -name '*.rt' -print0
        done | LC_ALL=C sort -z | xargs -0 sha256sum
    ) 2>/dev/null | sha256sum | cut -c 1-64
}

# What the sources are compiled to without proof, once, and kept in out/unproved until they or the kit change.
unproved_program() {
    local sum
    sum=$({ rt version && sources_sum; } | sha256sum)
    echo "$here/crates/$name/out/unproved/${sum:0:16}/$name"
}

# Whether a program is there: the proved one, or what these sources were compiled to.
is_there() {
    local found
    is_current && return
    command -v rt >/dev/null && found=$(unproved_program) && [ -x "$found" ] && program=$found
}

# Where the proved program isn't there, one is compiled from the sources without proof.
compile_unproved() {
    command -v rt >/dev/null || {
        tell "the proved program isn't built, and there is no rt, the kit's command, to run the sources (INSTALL.md says what is had without)"
        exit 3
    }
    program=$(unproved_program)
    if [ -x "$program" ]; then
        tell "running without proof: the proved program isn't built, or older than its sources"
        return
    fi
    tell "the proved program isn't built, or older than its sources. To prove and to build it: $build"
    tell "compiling the sources without proof, once: some minutes. What comes of it has checks, and is some fifty times as slow as the proved program"
    python3 "$here/scripts/compile_unproved.py" "$here/crates/$name" "$(basename "$(dirname "$program")")" || exit
}

# Whether the words ask for help or the version: the program of tdsplay has no help.
asks_for_help() {
    local word
    [ "$name" != tdsplay ] || [ $# = 1 ] || return 1
    for word; do
        case $word in
            --help | -h | --version | -V) return ;;
        esac
    done
    return 1
}

# Help is the program's where one is there, else what is stored of it. Behind it stands what a clone has besides.
answer_help() {
    if [ "$name" != tdsplay ] && is_there; then
        "$program" "$@" || exit
    else
        python3 "$looks" "$name" help "$@"
    fi
    case " $* " in
        *" --version "* | *" -V "*) return ;;
    esac
    echo
    [ ! -f "$here/scripts/help/$name.here" ] || cat "$here/scripts/help/$name.here"
    echo "To prove and to build the program: $build"
}

# What needs no program is answered at once: this ends the run there.
answer_at_once() {
    python3 "$looks" "$name" before "$@" || exit
}

# The program takes this script's place. A wrapper may say otherwise.
start_program() {
    exec "$program" "$@"
}

# Behind an error of tdsplay a second line says where and what is wrong: its own says the kind alone.
run_program() {
    local status
    if asks_for_help "$@"; then
        answer_help "$@"
        exit
    fi
    if ! is_current; then
        # Whatever runs then, and however far it has come.
        trap 'exit 130' INT
        answer_at_once "$@"
        compile_unproved
        trap - INT
    fi
    [ "$name" = tdsplay ] || start_program "$@"
    "$program" "$@"
    status=$?
    case $status in
        1 | 2) python3 "$looks" "$name" after "$@" ;;
    esac
    exit "$status"
}

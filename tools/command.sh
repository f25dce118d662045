# shellcheck shell=bash disable=SC2154
# What the commands at the root share: each sets `name`, `usage` and `root` and sources this file. Where something fails, a line on
# standard error says so and the exit status is 1; it is 2 where the words of the command are none that its usage has.

tell() { printf '%s: %s\n' "$name" "$1" >&2; }

stop() { # WHY
    tell "$1"
    exit 1
}

misused() { # WHY
    tell "$1"
    printf '%s\n' "${usage%%$'\n'*}" >&2
    exit 2
}

# ---- input and output

# --help prints the usage; no command has another option.
take_options() {
    case ${1-} in
        -h | --help)
            printf '%s\n' "$usage"
            exit
            ;;
        -?*) misused "unknown option $1" ;;
    esac
}

# Standard output is looked at first, so that a build is not waited for in vain.
look_at_output() { { : 3>&1; } 2>/dev/null || stop 'standard output is closed'; }

# The words of a command that takes one recording: the file becomes standard input; with - or no word, that stays what it is.
take_recording() {
    take_options "$@"
    [ $# -le 1 ] || misused "one recording at a time, and here are $#"
    look_at_output
    if [ "${1--}" = - ]; then
        { : 3<&0; } 2>/dev/null || stop 'standard input is closed'
        [ ! -d /dev/stdin ] || stop 'standard input is a folder'
        return
    fi
    [ -e "$1" ] || stop "no file $1"
    [ ! -d "$1" ] || stop "$1 is a folder"
    [ -r "$1" ] || stop "$1 may not be read"
    exec <"$1" || stop "$1 cannot be opened"
}

# The words of a command that takes none, and reads nothing.
take_nothing() {
    take_options "$@"
    [ $# -eq 0 ] || misused "no word is taken, and here is $1"
    look_at_output
    exec </dev/null
}

# The program reads standard input itself, not through a pipe, where a read that fails would look like the end of the input: it says why,
# prints no list and ends with status 1, as after a write that fails. Its output goes through cat, since some file systems say only at the
# close that the disk is full: cat looks at its close, and holds nothing back. No file is kept, however large the recording.
run_program() {
    local ends
    set +e
    "$program" | cat
    ends=("${PIPESTATUS[@]}")
    set -e
    # the reader of a pipe went away, as `head` does
    [ "${ends[1]}" -ne 141 ] || exit 141
    [ "${ends[1]}" -eq 0 ] || stop 'what was printed could not be written whole'
    [ "${ends[0]}" -eq 0 ] || stop "the program ended early, with status ${ends[0]}: what was printed is not whole"
}

# ---- the program, built where it is missing or older than its sources

# The crates that a crate stands on, and itself, by crates.txt.
crates_of() { # CRATE
    local line crate next words
    local -A needs=() seen=()
    while IFS= read -r line; do
        [[ $line == *:* && $line != '#'* ]] || continue
        crate=${line%%:*}
        needs[${crate%% *}]=${line#*:}
    done <"$root/crates.txt"
    next=("$1")
    while [ ${#next[@]} -gt 0 ]; do
        crate=${next[0]}
        next=("${next[@]:1}")
        # a crate that is not in crates.txt is the kit's
        if [ -n "${needs[$crate]+listed}" ] && [ -z "${seen[$crate]-}" ]; then
            seen[$crate]=yes
            printf '%s\n' "$crate"
            read -ra words <<<"${needs[$crate]}"
            next+=("${words[@]}")
        fi
    done
}

# A checksum of the sources that a crate stands on. Times would do less: a file put back may bear an old one.
sources_of() { # CRATE
    local crates
    mapfile -t crates < <(crates_of "$1")
    (
        cd "$root"
        find crates.txt "${crates[@]/#/crates/}" \( -name out -o -name must-fail \) -prune \
            -o -type f \( -name '*.rt' -o -name '*.antt' -o -name crates.txt \) -print0 \
            | LC_ALL=C sort -z | xargs -0 sha256sum | sha256sum
    )
}

# What is kept beside a program once it is built: the checksums of its sources and its own.
is_current() { # CRATE
    [ -x "$program" ] && [ -f "$built" ] && [ "$(cat "$built")" = "$(sources_of "$1"; sha256sum <"$program")" ]
}

# One build at a time in this clone. Where flock is missing, a folder is the lock; one that is left behind has to be removed by hand.
lock() {
    local at=$root/target/commands/lock
    if command -v flock >/dev/null; then
        exec 9>"$at"
        flock -n 9 && return
        tell 'another build is running, and is waited for'
        flock 9
        return
    fi
    if ! mkdir "$at.folder" 2>/dev/null; then
        tell "another build is running, and is waited for; if there is none, remove $at.folder"
        until mkdir "$at.folder" 2>/dev/null; do sleep 1; done
    fi
    trap unlock EXIT
}

unlock() {
    trap - EXIT
    if command -v flock >/dev/null; then
        exec 9>&-
    else
        rmdir "$root/target/commands/lock.folder"
    fi
}

# What `rt run` makes, which runs it, too: here on an empty input. `rt check` would not link a program that is missing.
build() { # CRATE LOG
    local sources
    sources=$(sources_of "$1")
    tell "proving and building the program: up to a quarter of an hour the first time, less after a change; what rt says is in $2"
    rm -f "$built"
    (cd "$root/crates/$1" && rt run) >"$root/$2" 2>&1 </dev/null 9>&- || stop "the build failed: see $2"
    [ -x "$program" ] || stop "the build left no program: see $2"
    [ "$sources" = "$(sources_of "$1")" ] || stop 'the sources were changed during the build: call again'
    { printf '%s\n' "$sources"; sha256sum <"$program"; } >"$built"
}

# The program of a crate, as its sources are.
need_program() { # CRATE
    local log=target/commands/$1.log
    program=$root/crates/$1/out/$1
    built=$root/target/commands/$1.built
    ! is_current "$1" || return 0
    command -v rt >/dev/null || stop 'the program has to be built, and rt (the Rattle toolchain) is not on PATH'
    { mkdir -p "$root/target/commands" && : >>"$root/$log"; } 2>/dev/null \
        || stop "the program has to be built, and $root/target cannot be written to"
    lock
    is_current "$1" || build "$1" "$log"
    unlock
}

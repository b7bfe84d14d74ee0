# work.sh: what the scripts do alike: one line where they cannot go on, a temporary
# folder that goes away on signals too, and commands that end with the script.
# Sourced from the repository's root, to which the script has gone by its one `cd`;
# so a path that the user gives is taken from the folder that was left.
# shellcheck shell=sh

users_folder=${OLDPWD:-$PWD}

# Says why in one line, and ends the script with status 2.
give_up() { # WORDS...
    printf '%s: %s\n' "${0##*/}" "$*" >&2
    exit 2
}

# The comment at the top of a script, for its --help.
print_head() { # SCRIPT
    sed -n '1d; /^#/!q; s/^# \{0,1\}//p' "$1"
}

# The path that the user means by this one.
absolute() { # PATH
    case $1 in /*) printf '%s\n' "$1" ;; *) printf '%s\n' "$users_folder/$1" ;; esac
}

# The word as it can be pasted into a shell.
quoted() { # WORD
    case $1 in
    '' | *[!A-Za-z0-9_./:,+-]*) printf "'%s'\n" "$(printf '%s\n' "$1" | sed "s/'/'\\\\''/g")" ;;
    *) printf '%s\n' "$1" ;;
    esac
}

# The first of what is below these folders, or of these files, that is newer than a file, if any. What rt keeps of a
# crate, in its folder out/, is none of it, nor that this folder was made.
newer_than() { # FILE SOURCES...
    file=$1
    shift
    find "$@" -path 'crates/*/out' -prune -o ! '(' -type d -path 'crates/*' ! -path 'crates/*/*' ')' -newer "$file" -print 2>/dev/null |
        head -n 1
}

# Makes the folder `work`, where the compiler and other scripts put their temporary
# files too. It goes away when the script ends, also by a signal, of which the script
# then dies: to its caller that is status 128 + the signal's number, and Ctrl-C ends
# the caller's loop too. PIPE comes from `tests/run | head`.
work_folder() {
    work='' ended=''
    trap '[ -z "$work" ] || rm -rf "$work"' EXIT
    for signal in HUP INT TERM PIPE; do
        # shellcheck disable=SC2064
        trap "end_by $signal" "$signal"
    done
    work=$(mktemp -d) || exit 2
    chmod 711 "$work" || exit 2 # `rt ci` of root runs a program as nobody, from there
    export TMPDIR="$work"
}

end_by() { # SIGNAL
    trap '' HUP INT TERM PIPE
    running=${!-}
    if [ "$running" != "$ended" ]; then
        end_group "$running" >/dev/null 2>&1 &
        wait "$running"
        kill -s KILL "$!"
    fi 2>/dev/null
    [ -z "$work" ] || rm -rf "$work"
    trap - EXIT "$1"
    kill -s "$1" $$
}

# Ends a command and all that it started. They are told more than once, since what has
# only just begun may miss it; and what has not ended after some seconds is killed.
end_group() { # PROCESS
    tries=20
    while [ $tries -gt 0 ]; do
        kill -s TERM -- "-$1" || kill -s TERM "$1" || return
        tries=$((tries - 1))
        sleep 0.2
    done
    kill -s KILL -- "-$1"
}

# Runs a command that may take long, in a process group of its own, so that a signal
# to the script ends it and all that it started. A shell that waits for a command in
# the foreground runs its traps only afterwards. Its standard input is empty. Only
# after work_folder, and not in a subshell.
run_child() { # COMMAND...
    setsid "$@" &
    wait "$!"
    set -- $?
    ended=$!
    return "$1"
}

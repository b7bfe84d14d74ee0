# host.sh: what the scripts need to know of this machine. Sourced from the
# repository's root, as tests/work.sh, which it brings along. The archive and the
# programs are for x86-64: there they run directly, on another processor under the
# kit's emulator.
#
#   kit           the kit's folder
#   kit_tools     its compiler, linker and C library
#   CC NM OBJDUMP a C compiler for x86-64 and its tools
#   c_flags       words that this compiler needs to link
#   run_c         words that run a C program compiled so
#   run_proved    words that run a program of target/bin
#   library_files reads_files listing_files
#                 the C files of these programs
#   caller_words  words that give ARCHIVE, LISTING and TALLY once more as the caller did
# A variable that the caller has set stays as it is.
# shellcheck shell=sh disable=SC2034
. tests/work.sh

# The kit comes with the machine. Its paths are used as words, so they have no blanks.
if [ -n "${RATTLE_HOME:-}" ]; then
    kit=$RATTLE_HOME
else
    command -v rt >/dev/null 2>&1 ||
        give_up 'rt is not on the PATH: the Rattle kit is needed, and these scripts do not install it'
    kit=$(rt doc) || give_up 'rt doc does not say where the Rattle kit is'
    kit=$(dirname "$kit")
fi
machine=$(uname -m)
kit_tools=$kit/toolchain
[ -d "$kit_tools" ] || give_up "the Rattle kit has no $kit_tools"
case $kit_tools in *[[:space:]]*) give_up "the Rattle kit's path has blanks, by which these scripts part words: $kit" ;; esac
emulator=''
[ ! -x "$kit_tools/bin/qemu-x86_64" ] || emulator=$kit_tools/bin/qemu-x86_64

# Installs packages if this command is not there.
need() { # COMMAND PACKAGE...
    wanted=$1
    shift
    command -v "$wanted" >/dev/null 2>&1 && return
    { apt-get install -qq -y "$@" || { apt-get update -qq && apt-get install -qq -y "$@"; }; } >/dev/null 2>&1
    command -v "$wanted" >/dev/null 2>&1 && return
    give_up "$wanted is missing, and $* could not be installed"
}

# a static program needs no C library of x86-64 beside the emulator
if [ "$machine" = x86_64 ]; then prefix='' c_flags=''; else prefix=x86_64-linux-gnu- c_flags=-static; fi
find_compiler() {
    if [ -z "$prefix" ]; then need gcc gcc; else need "${prefix}gcc" gcc-x86-64-linux-gnu libc6-dev-amd64-cross; fi
}
CC=${CC:-${prefix}gcc}
NM=${NM:-${prefix}nm}
OBJDUMP=${OBJDUMP:-${prefix}objdump}
run_c=$emulator
run_proved="$emulator $kit_tools/lib/ld-linux-x86-64.so.2 --library-path $kit_tools/lib"

library_files='tests/library.c tests/coverage.c tests/report.c tests/runs.c tests/asked.c tests/check.c tests/check_notice.c tests/check_list.c
    tests/check_repair.c tests/check_networks.c tests/seen.c tests/seen_networks.c tests/questions.c tests/questions_networks.c tests/lent.c
    tests/cabinet.c tests/worked.c tests/worked_why.c tests/worked_notice.c tests/worked_list.c tests/worked_repair.c tests/worked_networks.c
    tests/orders.c tests/orders_label.c tests/orders_notice.c tests/orders_list.c tests/orders_repair.c tests/orders_networks.c
    tests/combinations.c tests/combinations_label.c tests/refusals.c tests/damage.c tests/lengths.c tests/tables.c tests/exchanges.c
    tests/draining.c tests/bounds.c tests/enough.c tests/closed.c tests/jobs.c tests/halves.c tests/long_walks.c tests/frames.c tests/why_node.c
    tests/why_cause.c tests/why_named.c tests/why_hop.c tests/dimensions.c tests/notices.c tests/places.c tests/long_notices.c tests/written.c
    tests/written_back.c tests/written_refused.c tests/list_texts.c tests/list_numbers.c tests/list_written.c tests/list_back.c
    tests/list_refused.c tests/list_lengths.c tests/repaired.c tests/repaired_again.c tests/repair_refused.c tests/repair_lengths.c
    tests/networks.c tests/networks_blocks.c tests/networks_walks.c tests/networks_long.c tests/networks_refused.c tests/networks_damaged.c
    tests/networks_lengths.c tests/cases.c tests/reference.c tests/reference_notice.c tests/reference_write.c tests/reference_list.c
    tests/reference_why.c tests/reference_repair.c tests/reference_networks.c'
reads_files='tests/reads.c tests/reads_asked.c tests/noted.c tests/watch.c tests/cases.c'
listing_files='tests/listing_cases.c tests/listing_refused.c tests/cases.c tests/reference.c tests/reference_notice.c'

# Whether a file that is built from the crates is missing or older than they are.
stale() { # FILE
    [ ! -f "$1" ] || [ -n "$(newer_than "$1" crates crates.txt)" ]
}

# Builds it quietly if so; says what went wrong if it did.
build() { # FILE COMMAND...
    stale "$1" || return 0
    built=$1
    shift
    if [ "${ended-none}" = none ]; then # the script has no work_folder
        said=$("$@" 2>&1)
    else
        run_child "$@" >"$work/said" 2>&1 || { said=$(cat "$work/said"); false; }
    fi && touch "$built" && return 0
    printf '%s\n' "$said" >&2
    return 1
}

# The caller's ARCHIVE, LISTING and TALLY, taken from the folder that the user is in.
caller_words=''
if [ -n "${ARCHIVE:-}" ]; then
    ARCHIVE=$(absolute "$ARCHIVE")
    caller_words="ARCHIVE=$(quoted "$ARCHIVE") "
fi
if [ -n "${LISTING:-}" ]; then
    LISTING=$(absolute "$LISTING")
    caller_words="${caller_words}LISTING=$(quoted "$LISTING") "
fi
if [ -n "${TALLY:-}" ]; then
    TALLY=$(absolute "$TALLY")
    caller_words="${caller_words}TALLY=$(quoted "$TALLY") "
fi

# Sets ARCHIVE to the archive that is tested: the caller's, or that of target/, which
# is built if it is missing or older than the crates.
find_archive() {
    if [ -z "${ARCHIVE:-}" ]; then
        ARCHIVE=target/staticlib/libhcube.a
        build "$ARCHIVE" tools/build archive || give_up "$ARCHIVE could not be built"
    fi
    [ -f "$ARCHIVE" ] || give_up "ARCHIVE is no file: $ARCHIVE"
}

# The same for ASSEMBLY, that of target/kernel. It is built with the archive.
find_assembly() {
    [ -z "${ASSEMBLY:-}" ] || return 0
    ASSEMBLY=target/kernel/hcube_x86_64.S
    [ -z "$(find kernel/build kernel/to_kbuild.py -newer "$ASSEMBLY" 2>&1)" ] || rm -f "$ASSEMBLY"
    build "$ASSEMBLY" kernel/build || give_up "$ASSEMBLY could not be built"
}

# Makes `program` the C program of a tool, compiled with the archive. It is made anew for
# each call, but in the folder PROGRAMS, where set, it is kept: a test makes it once.
find_program() { # TOOL
    find_compiler
    find_archive
    program=${PROGRAMS:-$work}/$1
    # shellcheck disable=SC2086
    [ -n "${PROGRAMS:-}" ] && [ -f "$program" ] ||
        run_child $CC -std=c99 -O2 -Wall -Wextra -Werror -Iinclude -o "$program" "tools/$1.c" "$ARCHIVE" $c_flags ||
        give_up "tools/$1.c could not be compiled"
}

# The same for LISTING, the listing program.
find_listing() {
    if [ -z "${LISTING:-}" ]; then
        LISTING=target/bin/listing
        build "$LISTING" tools/build listing || give_up "$LISTING could not be built"
    fi
    [ -f "$LISTING" ] || give_up "LISTING is no file: $LISTING"
}

# The same for TALLY, the tally program.
find_tally() {
    if [ -z "${TALLY:-}" ]; then
        TALLY=target/bin/tally
        build "$TALLY" tools/build tally || give_up "$TALLY could not be built"
    fi
    [ -f "$TALLY" ] || give_up "TALLY is no file: $TALLY"
}

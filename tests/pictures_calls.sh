# pictures_calls.sh: how tools/draw is called, what it says of bad arguments, and what it
# leaves behind. Sourced by tests/pictures, whose functions and files it uses.
# shellcheck shell=sh disable=SC2154

# Arguments: the status, and the one line that is said.
refuses() { # STATUS LINE WORDS...
    status=$1 line=$2
    shift 2
    "$draw" "$@" >out 2>err </dev/null
    got=$?
    [ $got -eq "$status" ] && [ ! -s out ] && [ "$(wc -l <err)" -eq 1 ] && grep -q -x "$line" err
    result $? "arguments '$*': status $got, $(head -n 1 err)"
}
refuses 1 'list: notice refused: .*refusal 10 at byte 3.*' 04 02 03 81 00
refuses 1 'list: input refused: .*refusal 9 at byte 3.*' 04 00 01
refuses 1 'list: notice refused: .*' -
refuses 2 'list: not hex: .*' 04 0G
refuses 2 'list: no such file: nowhere' nowhere
refuses 2 'list: no such option: .*' --walk
refuses 2 'draw: --networks takes a number of 1 to 5, and not: 6' --networks 6 04 00
refuses 2 'draw: --networks takes a number of 1 to 5, and not: ' --networks
refuses 2 'draw: the cube has 7 dimensions, and a picture is of 6 at most' 07 00
refuses 2 'draw: 4 pairs are given, and a picture shows 3 at most' 04 00 0001 0001 0001 0001
"$draw" >/dev/full 2>err
got=$?
[ $got -eq 2 ] && [ "$(cat err)" = 'draw: the picture could not be written: No space left on device' ]
result $? "full disk: status $got, $(head -n 1 err)"

# Ways to say the same.
same() { # NAME COMMAND...
    name=$1
    shift
    "$@" >out 2>err
    got=$?
    [ $got -eq 0 ] && cmp -s out "$root/docs/pictures/k4-walk.svg" && [ ! -s err ]
    result $? "K4, $name: status $got"
}
mkdir 'a folder'
ln -s "$draw" 'a folder/a link'
cp "$root/docs/pictures/k4-walk.hex" 'a file'
printf '04 04 02 01 03 06\n0E 00' >CAFE # a name that is hex, and no end of the last line
mkfifo pipe
same 'no arguments' "$draw"
same 'words' "$draw" 0404 0201 0306 '0e 00'
same 'a file' "$draw" 'a file'
same 'a file with a name that is hex' "$draw" -f CAFE
same 'standard input' "$draw" - <'a file'
same 'a link' './a folder/a link' 'a file'
cat 'a file' >pipe &
same 'a pipe' "$draw" pipe
cat 'a file' >pipe &
same 'a pipe by -f' "$draw" -f pipe
wait

# Ended while it waits for its input, it leaves nothing.
mkdir left
TMPDIR=$work/left "$draw" pipe >out 2>err &
sleep 1
kill -TERM $!
wait $! 2>/dev/null
got=$?
[ $got -eq 143 ] && [ ! -s out ] && [ -z "$(ls left)" ]
result $? "signal: status $got"
"$draw" --help >out 2>err && grep -q 'tools/draw FILE' out && ! grep -q '^#' out && [ ! -s err ]
result $? "help: $(wc -l <out) lines"

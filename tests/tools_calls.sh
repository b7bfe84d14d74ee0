# tools_calls.sh: what README.md says of tools/list, what it leaves behind, and how it is
# called and builds its program. Sourced by tests/tools, whose functions and files it uses.
# shellcheck shell=sh disable=SC2154

# README.md: its table of refusals has the header's words, and its examples are right
page() {
    sed -n '/^## Two commands/,/^Prove everything/p' "$root/README.md"
}
for k in 1 5 6 7 9 10 11 12; do echo "$k $(words $k)"; done >wanted
page | sed -n 's/^| \([0-9][0-9]*\) | \([^|]*\) | .*/\1 \2/p' >got
cmp wanted got
result $? "README.md: $(wc -l <got) refusals in words"
page | awk '/^    tools\// { on = /^    tools\/list/ } # the examples of tools/notice are those of tests/notice
    /^    tools\/list/ { n++; sub(/^    tools\/list/, ""); print >("example." n); next }
    /^    / && on { sub(/^    /, ""); print >("example." n ".wanted") }'
for example in example.?; do
    # shellcheck disable=SC2046
    "$list" $(cat "$example") >got 2>&1
    cmp "$example.wanted" got
    result $? "README.md: tools/list$(cat "$example")"
done

# what it leaves behind: nothing, also where a signal ends it while it waits for its input
exec 3<>pipe # so that it waits
killed=''
for signal in TERM HUP; do
    "$list" - <pipe 3>&- &
    sleep 1
    kill -$signal $! && killed="$killed $signal"
done
exec 3>&- # so that what it started ends
wait
left=$(find tmp ! -name tmp)
[ "$killed" = ' TERM HUP' ] && [ -z "$left" ]
result $? "ended by$killed: left behind: ${left:-nothing}"

"$list" >/dev/full 2>err
[ $? -eq 2 ] && [ "$(cat err)" = 'list: the listing could not be written' ]
result $? "a full disk: $(cat err)"

# A copy of the repository, where blanks are in every path; a link to its tool; and a
# stand-in for tools/build, which notes that it was asked, copies the program, and wants no input.
mkdir -p 'a copy/tools' 'a copy/tests' 'a copy/crates' 'a folder'
cp "$root/tools/list" "$root/tools/hex.sh" 'a copy/tools'
cp "$root/tests/host.sh" "$root/tests/work.sh" 'a copy/tests'
cp -r "$root/include" 'a copy'
ln -s '../a copy/tools/list' 'a folder/linked list'
cp figure 'a folder/figure 1'
cat >'a copy/tools/build' <<'END'
#!/bin/sh
echo "$*" >>"$ASKED"
[ "$*" = listing ] && [ -n "$PROGRAM" ] && [ -z "$(cat)" ] || { echo 'not proved'; exit 1; }
mkdir -p target/bin && cp "$PROGRAM" target/bin/listing
END
chmod +x 'a copy/tools/build'
unset LISTING RATTLE_HOME
export ASKED="$work/asked" PROGRAM=''
list="$work/a folder/linked list"
cd 'a folder' || exit 2

# nobody is asked where there is nothing to list
status=0
"$list" --help >help 2>err || status=1
"$list" -h | cmp - help || status=1
[ ! -s err ] && ! grep -q '^#' help || status=1
for said in 'tools/list -f FILE ' '--file' 'tools/list - ' 'tools/list 4: 2,4,8,15 -- 13 0 ' 'tools/list --help ' './cafe' ' # ' '16,384' '1,048,576' 'LISTING' \
    'Exit status:' '  0  ' 'S D refused K' '  1  ' '  2  '; do
    grep -q -e "$said" help || { echo "  not in --help: $said"; status=1; }
done
result $status "--help: $(wc -l <help) lines"
fails 'no file to build for' 'no such file: nowhere' nowhere
fails 'no hex to build for' 'not hex: 0G' 04 0G
[ ! -e "$ASKED" ]
result $? 'builds nothing where there is nothing to list'

export RATTLE_HOME="$kit"
building='list: proving and building the listing program, which takes some minutes'
gives 'a program that cannot be built' "status 2
$building
not proved
list: the listing program could not be built" 'figure 1'
PROGRAM=$program
gives 'a program to build' "$first_pair
status 0
$building" 'figure 1' <"$root/README.md"
lists 'a program that is built' "$first_pair" 'figure 1'
touch '../a copy/crates/changed'
gives 'a program that is old' "$first_pair
status 0
$building" 'figure 1'
cp "$program" 'a program'
export LISTING="$work/a folder/a program"
touch '../a copy/crates/changed'
lists 'another program' "$first_pair" 'figure 1'
LISTING=$work/nowhere
fails 'a program that is not there' "no such program: $work/nowhere" 04 00
cd "$work" || exit 2

# pictures_tally.sh: the pictures of a tally, from crates/tally/stdout. That the program prints
# this tests/tally finds. Sourced by tests/pictures, whose functions and files it uses.
# shellcheck shell=sh disable=SC2154
tally=$root/crates/tally/stdout

shows_shares() { # PICTURE N
    python3 -B "$root/tests/shares_check.py" "$1" "$tally" "$2"
}
bad=0
for n in 1 2 3 4; do
    { "$draw" --tally $n "$tally" >tally-$n.svg && shows_shares tally-$n.svg $n; } || { echo "  tools/draw --tally $n"; bad=$((bad + 1)); }
done
result $bad "tally: n = 1 to 4 drawn, $bad wrong"

# A picture that shows something else is found out.
bad=0 count=0
while read -r edit; do
    sed "$edit" tally-4.svg >altered.svg
    if cmp -s altered.svg tally-4.svg || shows_shares altered.svg 4 >out 2>&1; then
        printf '  not found out: %s\n' "$edit"
        bad=$((bad + 1))
    fi
    count=$((count + 1))
done <<'EDITS'
$d
s/id="faults-5"/id="faults-50"/
/id="faults-5"/,/^<.g>/d
s/>93.33</>93.34</
s/>18.68</>18.69</
s/&#8211;/0/
s/>no node works, and there is no walk</></
s/4,456,448/4,456,447/
s/<title>cube 4: how 4456448/<title>cube 4: how 4456447/
s/65,536/65,535/
s/part halted/part four/
/id="faults-12"/,/^<.g>/s/part none/part halted/
/id="faults-9"/,/^<.g>/s/width="279"/width="270"/
/id="faults-9"/,/^<.g>/s/part halted" x="/part halted" x="1/
/id="faults-5"/,/^<.g>/s/ V/ H/
/id="faults-5"/,/^<.g>/s/class="stripes"/class="other"/
s/>2 extra hops</>4 extra hops</
s/^4 1820 28/4 1820 29/
s/<rect class="paper"/<rect class="other"/
s/class="head" x="24" y="38"/class="head" x="24" y="55"/
s/class="note" x="24"/class="note" x="324"/
s/Verdana/url(font)/
EDITS
[ $bad -eq 0 ] && [ $count -ge 22 ]
result $? "altered pictures of a tally: $count, $bad not found out"

# Lines that are no tally are not drawn.
bad=0 count=0
while read -r edit; do
    sed "$edit" "$tally" >altered
    "$draw" --tally 4 altered >out 2>err
    got=$?
    if cmp -s altered "$tally" || [ $got -ne 1 ] || [ -s out ] || [ "$(wc -l <err)" -ne 1 ] || ! grep -q '^draw: ' err; then
        printf '  status %s, not refused: %s\n' $got "$edit"
        bad=$((bad + 1))
    fi
    count=$((count + 1))
done <<'EDITS'
d
$d
/^cube 4/d
s/^0 1 0 256 0 0 0/0 1 0 256 0 0/
s/^0 1 0 256 0 0 0/0 1 0 256 0 0 x/
s/^5 4368 816 493296/5 4368 816 493297/
s/^5 4368 816/5 4368 4369/
/^6 8008/d
s/^6 8008/7 8008/
EDITS
[ $bad -eq 0 ] && [ $count -ge 9 ]
result $? "altered tallies: $count, $bad drawn or refused otherwise"

refuses 2 'draw: --tally takes a number of 1 to 4, then a file, and not: 0' --tally 0
refuses 2 'draw: --tally takes a number of 1 to 4, then a file, and not: 5' --tally 5
refuses 2 'draw: --tally takes a number of 1 to 4, then a file, and not: 4 a b' --tally 4 a b
refuses 2 'draw: no such file: nowhere' --tally 4 nowhere
TALLY=nowhere refuses 2 "draw: TALLY is no file: $work/nowhere" --tally

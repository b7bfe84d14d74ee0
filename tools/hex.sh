# hex.sh: bytes in hex, as a user gives them: on the command line, in a file or on standard
# input. What is taken, `tools/list --help` says. Sourced by tools/list and tools/notice,
# which have set `tool`, their name, and `given`, the folder that the user is in.
# shellcheck shell=sh disable=SC2034,SC2154

bytes_max=16384
text_max=1048576 # 64 characters for each byte, so that there is room for comments
name=''          # of the file, where the text is that of one
missing=''       # what to add where an argument was taken for bytes

# One line on standard error. Of names and words it shows no control character.
say() {
    printf '%s: %s' "$tool" "$*" | tr '[:cntrl:]' '?' >&2
    echo >&2
}

fail() {
    say "$*"
    exit 2
}

# Reads no more than shows that the text is too long. A byte that is not text becomes
# a ?, which is not hex: a variable cannot hold every byte. Only if all could be read
# the mark stands at the end.
read_text() { # [FILE]
    text=$({ head -c $((text_max + 1)) "$@" 2>/dev/null && printf '<end>'; } | LC_ALL=C tr -c '[:print:][:space:]' '?')
    case $text in *'<end>') text=${text%'<end>'} ;; *) fail "could not be read: $name" ;; esac
}

read_file() { # NAME
    name=$1
    [ -n "$name" ] || fail 'the name of the file is empty'
    case $name in /*) file=$name ;; *) file=$given/$name ;; esac
    [ -e "$file" ] || fail "no such file: $name"
    [ ! -d "$file" ] || fail "a directory, not a file: $name"
    read_text "$file"
}

# One argument alone is bytes only where nothing has that name, not even a link.
read_argument() { # ARGUMENT
    case $1 in
    '' | /* | *[!0-9A-Fa-f[:space:]]*) read_file "$1" ;;
    *)
        if [ -e "$given/$1" ] || [ -L "$given/$1" ]; then
            read_file "$1"
        else
            text=$1
            [ ${#1} -gt 255 ] || missing="; no such file: $1" # a file's name is not longer
        fi
        ;;
    esac
}

# Prints the digits of all words, one byte more than the limit at most, or says what is
# wrong first. Each word counts by itself: digits of two words never make one byte. A
# word of the command line is shown, the text of a file is not: it may be anything.
digits() {
    printf '%s\n' "$text" | LC_ALL=C tr '\f\r\v' '   ' | LC_ALL=C awk -v file="${name:+1}" -v most=$((2 * bytes_max + 2)) '
        function wrong(what, word) { if (!told) told = what ": " (file ? "line " NR : word) }
        file { sub(/#.*/, "") }
        {
            for (i = 1; i <= NF; i++) {
                if ($i ~ /[^0-9A-Fa-f]/) wrong("not hex", $i)
                else if (length($i) % 2) wrong("an odd number of hex digits", $i)
                else if (length(all) < most) all = all $i
            }
        }
        END { print told ? told : substr(all, 1, most); exit told != "" }'
}

# Takes the bytes that these words give or name, and leaves their digits in `hex`. Where
# they are too many it leaves one more than there may be, and `too_long` says why.
read_hex() { # WORDS...
    case $1 in
    -f | --file)
        [ $# -eq 2 ] || fail "$1 takes one file"
        read_file "$2"
        ;;
    -)
        [ $# -eq 1 ] || fail '- takes nothing beside it'
        name='standard input'
        (: 3<&0) 2>/dev/null || fail "could not be read: $name" # shut: the shell's own pipe would take its place
        read_text
        ;;
    -*) fail "no such option: $1; --help tells which there are" ;;
    *) if [ $# -eq 1 ]; then read_argument "$1"; else text=$*; fi ;;
    esac
    if [ ${#text} -le $text_max ]; then
        hex=$(digits) || fail "$hex${name:+ of $name}$missing"
        too_long='more than 16,384 bytes'
    else
        hex=$(printf "%0$((2 * bytes_max + 2))d" 0) # any bytes, too many
        too_long='more than 1,048,576 characters of text'
    fi
}

# Writes the bytes: hex to octal escapes, and these to bytes.
put_bytes() {
    # shellcheck disable=SC2046
    escapes=$([ -z "$hex" ] || printf '\\%03o' $(printf '%s\n' "$hex" | sed 's/../0x& /g'))
    # shellcheck disable=SC2059
    printf "$escapes"
}

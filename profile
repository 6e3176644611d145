#!/bin/sh
# Runs the report program on a trace: see ./profile --help. Builds the program where a source is newer.
set -u

version=0.1

usage() {
    cat <<'END'
usage: profile [FILE]
       profile --help | --version

Prints the report of the trace in FILE, or of the one on standard input where FILE is -
or, away from a terminal, left out.
A report has a line for the root and for each site: its row, then calls, work, span,
local and on span, in hexadecimal. A trace that breaks a rule gets one line instead:
ff, the number of the refusal, and the line of the trace, from 0. Standard error then
says what that is and what to do.

The program takes 65,527 bytes (2,849 lines), a depth of 32 and 31 sites.

Where a source is newer than the program, it is proved and built first, which takes
some minutes.

Exit status:
  0  a report was printed
  1  a refusal was printed
  2  wrong usage
  3  the input cannot be read, the output cannot be written, or the program cannot
     be built; nothing that was printed is an answer
END
}

# says a sentence on standard error, where there is one
say() {
    printf 'profile: %s\n' "$1" >&2 2>/dev/null
}

fail() {
    say "$1"
    exit 3
}

wrong() {
    say "$1"
    say 'usage: profile [FILE]; profile --help says more'
    exit 2
}

cannot_write='standard output cannot be written'
true 2>/dev/null 3>&1 || fail "$cannot_write"

case ${1-} in
-h | --help)
    usage 2>/dev/null || fail "$cannot_write"
    exit 0
    ;;
--version)
    printf 'profile %s\n' "$version" 2>/dev/null || fail "$cannot_write"
    exit 0
    ;;
--) shift ;;
-?*) wrong "$1: no such option" ;;
esac
[ $# -le 1 ] || wrong "one FILE at a time, not $#: $*"
[ $# -eq 1 ] || ! [ -t 0 ] || wrong 'no trace: name a FILE, or - for standard input'

file=${1--}
if [ "$file" = - ]; then
    true 2>/dev/null 3<&0 || fail 'standard input is closed'
else
    [ -e "$file" ] || fail "$file: no such file"
    [ ! -d "$file" ] || fail "$file: is a folder"
    { command exec <"$file"; } 2>/dev/null || fail "$file: cannot be read"
fi

# the folder of this script, behind every link
unset CDPATH
self=$0
while [ -L "$self" ]; do
    link=$(readlink "$self")
    case $link in
    /*) self=$link ;;
    *) self=${self%"${self##*/}"}$link ;;
    esac
done
case $self in
*/*) cd "${self%/*}/" || fail "${self%/*}: cannot be entered" ;;
esac

program=target/bin/profile
log=target/profile.log
# made as a build begins and kept where it succeeds
stamp=target/profile.stamp

# whether the program is there, and no source is newer
is_built() {
    [ -x "$program" ] && [ -f "$stamp" ] &&
        [ -z "$(find crates crates.txt \( -name must-fail -o -name out \) -prune -o \
            \( -name '*.rt' -o -name '*.antt' -o -name crates.txt \) -newer "$stamp" -print)" ]
}

# proves and builds the program, and runs it on nothing; all that is said goes to standard output
prove_and_build() {
    (cd crates/profile && rt run 2>&1 </dev/null >/dev/null) &&
        mkdir -p target/bin && cp crates/profile/out/profile "$program.new" && mv "$program.new" "$program" && echo built
}

# does so, and says which crate is done; all that rt says stands in the log
build() {
    : >"$stamp.new"
    crate=
    prove_and_build 2>&1 | while IFS= read -r said; do
        case $said in
        'crate '*) crate=${said#crate } crate=${crate%%:*} ;;
        logic=proved*) say "$crate proved" ;;
        esac
        printf '%s\n' "$said"
    done >"$log"
    [ "$(tail -n 1 "$log")" = built ] && mv "$stamp.new" "$stamp"
}

# builds where that is needed; of two runs at once the second waits, and finds the program built
if ! is_built; then
    command -v rt >/dev/null ||
        fail 'the program cannot be built: rt, the command of the Rattle kit, is not on the path'
    mkdir -p target 2>/dev/null && { command exec 9>target/profile.lock; } 2>/dev/null ||
        fail "the program cannot be built: $PWD/target cannot be written"
    if command -v flock >/dev/null && ! flock -n 9; then
        say 'waiting for another run, which builds the program'
        flock 9
    fi
    if ! is_built; then
        say 'proving and building the program: some minutes, once'
        build || fail "the program cannot be built: $PWD/$log says why"
    fi
    exec 9>&-
fi

# the program writes nothing where its input cannot be read, and says so itself
answer=$("$program") || fail 'the program ended without an answer'
[ -n "$answer" ] || exit 3
printf '%s\n' "$answer" 2>/dev/null || fail "$cannot_write"

case $answer in
ff*) ;;
*) exit 0 ;;
esac

# a refusal: the card's row says what it is and what to do
number=${answer#ff}
line=$((0x${number#??}))
number=$((0x${number%????????}))
while IFS='|' read -r _ row _ says todo _; do
    [ "$row" = " $number " ] || continue
    says=${says# } todo=${todo# }
    say "refusal $number, line $line: ${says% }"
    say "what to do: ${todo% }"
done <docs/CARD.md
exit 1

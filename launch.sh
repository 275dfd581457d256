# What starts a proved program, for the launchers ./replay and ./check, which take this in. They set here to the folder that they stand in.

# (An echo may take a backslash in a name for a sign of its own.)
die() {
    printf '%s\n' "${0##*/}: $*" >&2
    exit 1
}

# Sets folder to the folder that a path stands in.
folder_of() {
    case $1 in
    */*) folder=${1%/*}/ ;;
    *) folder=./ ;;
    esac
}

# Becomes find, which prints what of crates.txt and the files of crates/ is newer than the program, but for what was made of them in a folder
# out; an argument is one more word to it.
newer() {
    exec find "$here/crates.txt" "$here/crates" -type d -name out -prune -o -type f -newer "$program" -print "$@"
}

# Whether the program is missing or older than one of those. The first is enough, but -quit is in no standard, so where find fails with it
# find is asked without; what else it has to say is heard then.
stale() {
    [ -x "$program" ] || return 0
    found=$(newer -quit 2>/dev/null) || found=$(newer)
    [ -n "$found" ]
}

# Builds the program, unless another launcher has done so meanwhile. rt runs what it has built: here on nothing, and what that answers goes nowhere.
rebuild() {
    ! command -v flock >/dev/null 2>&1 || flock 6
    stale || return 0
    echo "${0##*/}: the program is missing or older than its sources, so it is proved and built first: that can take some minutes" >&2
    CDPATH='' cd "$here/crates/${program##*/}" && rt run </dev/null >/dev/null 5</dev/null 6>&- 7<&- && touch "out/${program##*/}"
}

# The same, one launcher at a time.
build() {
    command -v rt >/dev/null 2>&1 || die "the program has to be built first, and the Rattle toolchain's command 'rt' is not on the PATH"
    mkdir -p "$here/target" || die "the program can't be built: there is no room for it in $here"
    beside rebuild 6>"$here/target/building" || die "the program could not be built: the lines above say why"
}

# Finds the program of that name, and builds it where that has to be. One that is built needs no rt on the PATH.
ready() {
    program=$here/crates/$1/out/$1
    if stale; then build; fi
}

# Becomes the program.
run() {
    exec "$program"
}

# Refuses a file that can't be read.
may_read() {
    [ -e "$1" ] || die "there is no file '$1'"
    [ ! -d "$1" ] || die "'$1' is a folder, and no file"
    [ -r "$1" ] || die "the file '$1' can't be read"
}

# Refuses files of which two are one stream: each would get a part of what comes. A regular file may be named again.
apart() {
    while [ $# -gt 1 ]; do
        first=$1
        shift
        if [ -f "$first" ] || [ "$first" -ef /dev/null ]; then continue; fi
        for other; do
            [ ! "$first" -ef "$other" ] || die "'$first' and '$other' are one stream, which can be read only once"
        done
    done
}

# Sets x, y and z to descriptors that the caller has not opened, so that no file that is named can be behind one. 5, 6 and 7 are the program's.
spare() {
    x='' y='' z=''
    for number in 3 4 8 9; do
        if ! eval "{ true <&$number; } 2>/dev/null"; then z=$y y=$x x=$number; fi
    done
    [ -n "$z" ] || die "too many descriptors are open: of 3, 4, 8 and 9 three have to be free"
}
spare

# Ends a process and all that it has started.
end_all() (
    kids=
    { read -r kids <"/proc/$1/task/$1/children"; } 2>/dev/null
    kill "$1" 2>/dev/null
    for kid in $kids; do end_all "$kid"; done
)

# Takes a signal: nothing is left that goes on reading.
signalled() {
    trap '' HUP INT QUIT TERM
    [ -z "$child" ] || end_all "$child"
    die "ended by a signal ($1)"
}

child=
for signal in HUP INT QUIT TERM; do trap "signalled $signal" "$signal"; done

# Runs what is named beside the launcher, which waits for it, and meanwhile takes signals. The status is that of what was run. (The shell
# takes standard input from what goes on beside it, so that comes by x.)
beside() {
    eval "{ \"\$@\" <&$x $x<&- & } $x<&0"
    child=$!
    wait "$child"
}

# Says by which signal a program was ended, if its status tells so. Of a reader that went away nothing has to be said.
why_ended() {
    if [ "$1" -gt 128 ] && [ "$1" -ne 141 ]; then
        echo "${0##*/}: the program was ended by signal $(($1 - 128)), so this is not all" >&2
    fi
}

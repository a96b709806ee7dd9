# What the scripts of this folder share: what they tell, and how they come to the program `office`.
here=$(realpath "$(dirname "$0")")
repository=$(realpath "$here/../..")
# Programs that were started behind the others.
players=()
# What a script needs for itself alone, and removes.
room=$(mktemp -d)
# What a script leaves that is stopped.
kept='nothing is kept'

# Tells something that the office doesn't print.
tell() {
    echo "${0##*/}: $*" >&2
}

# Tells why it can't go on, and ends.
stop() {
    tell "$@"
    exit 1
}

# What it started ends with it.
clear_up() {
    for player in "${players[@]}"; do kill "$player" 2> /dev/null || true; done
    rm -rf "$room"
}

trap 'tell "its line $LINENO failed, which says nothing of the office"' ERR
trap 'stop "stopped from outside: $kept"' INT TERM
trap clear_up EXIT

# There is a command of this name.
needs() {
    [[ -n $(type -P "$1") ]] || stop "there is no command $1, $2"
}

# A port that is to be free is so.
needs_port() {
    ! (exec 3<> "/dev/tcp/127.0.0.1/$1") 2> /dev/null || stop "port $1 is taken: something answers there"
}

# How many crates of the repository the program stands on, itself among them.
count_crates() {
    awk '/^[a-z]/ { name = $1; sub(":", "", name); $1 = ""; below[name] = $0 }
        END {
            todo = "office"
            while (todo != "") {
                count = split(todo, names, " "); todo = ""
                for (i = 1; i <= count; i++) {
                    if (!(names[i] in below) || names[i] in seen) continue
                    seen[names[i]]; total++; todo = todo below[names[i]]
                }
            }
            print total
        }' "$repository/crates.txt"
}

# Shows of what `rt run` prints how far it is.
show_progress() {
    local line crate='' number=0 total=$1
    while IFS= read -r line; do
        case $line in
            'rt: chose --jobs '*)
                crate=${line##* }
                number=$((number + 1))
                tell "$((SECONDS / 60)) min: crate $number of at most $total, $crate" ;;
            'so far: '*) tell "$((SECONDS / 60)) min:   ${line#so far: }" ;;
            'logic=proved '*)
                [[ $crate != office ]] ||
                    tell "$((SECONDS / 60)) min: all is proved; clang compiles it now, four to eleven minutes without a line" ;;
        esac
    done
}

# Proves and builds the program, and goes on from what an earlier try left.
build() {
    local log
    kept='the crates that were proved are kept, and another try goes on from them'
    needs rt 'which is of a Rattle kit, and proves and builds the program; the path of an office spares that'
    tell "proves and builds the program office first, which stands on $(count_crates) crates with itself. When they were 23 that"
    tell 'took 83 minutes on four processors with 24 GB and nothing beside, three before the first line of its progress. A'
    tell 'crate that is proved is kept where this is stopped.'
    tell "Meanwhile, bash $here/try.sh --quick plays the roof of $here/roof.md as a page."
    log=$(mktemp)
    (cd "$repository/crates/office" && rt run -- --version) 2>&1 | tee "$log" | show_progress "$(count_crates)" ||
        { tail -n 20 "$log" >&2; stop "the program wasn't proved and built: the last lines stand above, all in $log"; }
}

# Sets where the program is that was named, or that is proved and built here.
find_office() {
    [[ $# -gt 0 ]] || build
    office=$(type -P "${1:-$repository/crates/office/out/office}") || stop "$1 is no program"
    office=$(realpath "$office")
}

# Starts the program behind the others, and waits until it listens.
start() {
    : > listening
    "$office" "$@" 2> listening &
    players+=($!)
    until grep -q 'listening on' listening; do
        kill -0 $! 2> /dev/null || { cat listening >&2; stop "office $1 didn't come to listen: see above"; }
        sleep 0.1
    done
}

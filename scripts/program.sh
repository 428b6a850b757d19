# Read by strips and grade, in a checkout and installed. They set `name` to the program's name and `library` to the folder of this file;
# place.sh beside it says where the program is: scripts/place.sh in a checkout, scripts/installed.sh under that name where it is installed.

# fail STATUS MESSAGE
fail() {
    printf '%s: %s\n' "$name" "$2" >&2
    exit "$1"
}

# readable FILE: ends with status 2 where it cannot be read
readable() {
    [ -e "$1" ] || fail 2 "$1: no such file"
    [ ! -d "$1" ] || fail 2 "$1: is a directory"
    [ -r "$1" ] || fail 2 "$1: cannot be read"
}

# version: the line of --version, from what `facts` prints: the project's version, the commit and the kit, a line each
version() {
    facts | {
        read -r project && read -r commit && read -r kit &&
            printf '%s (pelshaqu) %s, commit %s, %s\n' "$name" "$project" "$commit" "$kit"
    }
}

# asked WORD: answers --help and --version
asked() {
    case $1 in
    -h | --help) usage || exit 3 ;;
    --version) version || fail 3 "its version cannot be read" ;;
    *) return 0 ;;
    esac
    exit 0
}

. "$library/place.sh"

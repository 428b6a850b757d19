# Read by program.sh of an installation, where it is place.sh: the program is in the same folder, and is there or not.
at=
first_use=

built() {
    program=$library/$name
    [ -x "$program" ] || fail 3 "$program: not there, so this is no whole installation"
}

facts() {
    cat "$library/version"
}

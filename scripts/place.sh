# Read by program.sh in a checkout, and by scripts/build.sh: the programs and the library are in target/, and are proved and built where
# they are not there or a source has changed. `library` is the checkout's folder of scripts.
root=${library%/*}
at=./
first_use="

The first use proves the program and builds it, which takes some minutes; later
ones start at once."

# current FILE: whether it is there and newer than every source. What rt keeps in a crate's out/ is no source.
current() {
    [ -e "$1" ] && [ -z "$(find "$root/crates" "$root/crates.txt" -name out -prune -o -type f -newer "$1" -print | head -n 1)" ]
}

# made FILE CRATE LEFT COMMAND: where FILE is not there or a source has changed, runs `rt COMMAND` in the crate's folder; of LEFT, which it
# leaves in the crate's out/, FILE is a copy. The code is for every x86-64.
made() {
    thing=$1
    left=$root/crates/$2/out/$3
    if current "$thing"; then
        return
    fi
    command -v rt >/dev/null || fail 3 "not built yet, or a source has changed, and 'rt' of the Rattle kit is not on the PATH"
    if [ -e "$thing" ]; then
        echo "$name: the sources have changed: proving and building" >&2
    else
        echo "$name: proving and building, which takes some minutes the first time" >&2
    fi
    mkdir -p "$root/target" "${thing%/*}" || fail 3 "$root/target: cannot be made"
    log=$root/target/$name.log
    # rt builds only what is proved, so what is there behind it is. Its exit status may be that of the program, which it runs with no words.
    rm -f "$left"
    (cd "$root/crates/$2" && rt "$4" --cpu x86-64) >"$log" 2>&1 </dev/null
    if ! [ -e "$left" ]; then
        tail -n 20 "$log" >&2
        fail 3 "not proved or not built; $log has it all"
    fi
    cp "$left" "$thing.new" && mv "$thing.new" "$thing" || fail 3 "$thing: cannot be written"
    note || fail 3 "$root/target/version: cannot be written"
}

# built: the program is in target/, and `program` is its path
built() {
    program=$root/target/bin/$name
    made "$program" "$name" "$name" run
    [ -x "$program" ] || fail 3 "$program: cannot be run"
}

# archived CRATE: the static library is in target/, under `name`
archived() {
    made "$root/target/staticlib/$name" "$1" "lib$1.a" lib
}

# commit: what git says of the checkout, with '-dirty' where a tracked file was changed; fails outside a checkout of git
commit() {
    [ -e "$root/.git" ] && git -C "$root" describe --always --abbrev=7 --dirty --exclude='*' 2>/dev/null
}

# noted: whether target/version is there and no older than what was built
noted() {
    [ -e "$root/target/version" ] &&
        [ -z "$(find "$root/target/bin" "$root/target/staticlib" -newer "$root/target/version" -type f 2>/dev/null | head -n 1)" ]
}

# facts: three lines, the project's version, the commit and the kit that built what is in target/. Without git the commit is the noted
# one, and so is the kit, unless something was built since.
facts() {
    cat "$root/VERSION" || return
    commit || sed -n 2p "$root/target/version" 2>/dev/null | grep . || echo unknown
    if noted; then
        sed -n 3p "$root/target/version"
    else
        rt version 2>/dev/null | grep . || echo "kit unknown"
    fi
}

# note: writes these facts to target/version
note() {
    said=$(facts) || return
    noted && [ "$said" = "$(cat "$root/target/version")" ] || printf '%s\n' "$said" >"$root/target/version"
}

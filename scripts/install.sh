#!/bin/sh
# scripts/install.sh install|uninstall, for the Makefile, whose variables it has from the environment: puts what was built where they
# say, or takes away what an installation has put there. LIBDIR/pelshaqu/manifest lists its files, and the folders that it made.
set -eu
cd "$(dirname -- "$0")/.."

fail() {
    echo "scripts/install.sh: $1" >&2
    exit 1
}

# Names are written into files, between quotes; and the files find one another by the way from folder to folder.
for folder in "$PREFIX" "$BINDIR" "$LIBDIR" "$INCLUDEDIR" "$MANDIR" "$DATADIR" "${PYTHONDIR:-/}"; do
    case $folder in
    *[\"\'\`\$\\\|\&]* | *'
'*) fail "$folder: a quote, '\$', '\\', '|', '&' or the end of a line cannot stand in a folder's name" ;;
    /*) ;;
    *) fail "'$folder': a folder's name begins with '/'" ;;
    esac
done
home=$LIBDIR/pelshaqu
manifest=$DESTDIR$home/manifest
work=$(mktemp -d)
trap 'rm -rf "$work"' EXIT

# way FROM TO: from one folder of the installation to another, by their real names
way() {
    realpath -m --relative-to="$DESTDIR$1" -- "$DESTDIR$2"
}

# noted KIND PATH: a line of the manifest, as the way from its folder
noted() {
    printf '%s %s/%s\n' "$1" "$(way "$home" "$(dirname -- "$2")")" "$(basename -- "$2")" >>"$work/manifest"
}

# folder PATH: makes it, and those above it, where they are not there
folder() {
    if [ -d "$DESTDIR$1" ]; then
        return
    fi
    folder "$(dirname -- "$1")"
    $INSTALL -d -m 755 "$DESTDIR$1"
    noted folder "$1"
}

# file MODE PATH SOURCE
file() {
    folder "$(dirname -- "$2")"
    $INSTALL -m "$1" "$3" "$DESTDIR$2"
    noted file "$2"
}

# link PATH NAME
link() {
    ln -sfn -- "$2" "$DESTDIR$1"
    noted file "$1"
}

# paths MANIFEST: its lines with whole paths. A file stays the name that it is, a link too.
paths() {
    while read -r kind path; do
        printf '%s %s/%s\n' "$kind" "$(realpath -m -- "$DESTDIR$home/$(dirname -- "$path")")" "$(basename -- "$path")"
    done <"$1"
}

# taken PATH: removes a file, and of a module what Python has made of it
taken() {
    rm -f -- "$1"
    case $1 in
    *.py)
        cache=$(dirname -- "$1")/__pycache__
        module=$(basename -- "$1" .py)
        rm -f -- "$cache/$module".*.pyc
        rmdir -- "$cache" 2>/dev/null || :
        ;;
    esac
}

# front NAME: the script, with the folder of an installation for that of a checkout
front() {
    sed "s|^library=\"\$here/scripts\"\$|library=\"\$here/$(way "$BINDIR" "$home")\"|" "$1" >"$work/$1"
    [ "$(diff "$1" "$work/$1" | grep -c '^[<>] library=')" = 2 ] || fail "$1: no line that says where its program is"
    file 755 "$BINDIR/$1" "$work/$1"
}

# page FILE: a manual page, without its section on a checkout, and with the version
page() {
    sed -e '/^\.SH IN A CHECKOUT/,/^\.SH/{/^\.SH IN A CHECKOUT/d;/^\.SH/!d;}' -e "/^\.TH/s/\"Pelshaqu\"/\"Pelshaqu $version\"/" "$1" >"$work/${1##*/}"
    file 644 "$MANDIR/man${1##*.}/${1##*/}" "$work/${1##*/}"
}

python_package() {
    package=$PYTHONDIR/pelshaqu
    for source in $(cd python/pelshaqu && find . -name __pycache__ -prune -o -name tests -prune -o -type f \( -name '*.py' -o -name py.typed \) -print | LC_ALL=C sort); do
        [ "$source" = ./_build.py ] || file 644 "$package/${source#./}" "python/pelshaqu/${source#./}"
    done
    {
        echo '"""What was built and installed, and the way from here to the library."""'
        echo
        echo "VERSION = \"$version\""
        echo "COMMIT = \"$(sed -n 2p target/version)\""
        echo "KIT = \"$(sed -n 3p target/version)\""
        echo "LIBRARY = \"$(way "$package" "$LIBDIR")/libpelshaqu.so.$major\""
    } >"$work/_build.py"
    file 644 "$package/_build.py" "$work/_build.py"
    case $PYTHON in
    /*) python=$PYTHON ;;
    *) python="/usr/bin/env $PYTHON" ;;
    esac
    sed -e "s|@PYTHON@|$python|" -e "s|@PACKAGE@|$(way "$BINDIR" "$package")|" scripts/pelshaqu.in >"$work/pelshaqu"
    file 755 "$BINDIR/pelshaqu" "$work/pelshaqu"
}

case ${1-} in
install)
    version=$(sed -n 1p target/version)
    major=${version%%.*}
    [ -d "$DESTDIR/" ] || mkdir -p -- "$DESTDIR/"
    : >"$work/manifest"
    if [ -z "$PYTHON" ]; then
        PYTHONDIR=
    elif [ -z "$PYTHONDIR" ]; then
        PYTHONDIR=$("$PYTHON" scripts/pythondir.py "$PREFIX") || fail "$PYTHON does not say where its packages are; PYTHON= leaves the Python package out"
    fi

    folder "$home"
    for program in strips grade; do
        front "$program"
        file 755 "$home/$program" "target/bin/$program"
    done
    file 644 "$home/program.sh" scripts/program.sh
    file 644 "$home/place.sh" scripts/installed.sh
    file 644 "$home/version" target/version
    file 644 "$LIBDIR/libpelshaqu.a" target/staticlib/libpelshaqu.a
    file 644 "$LIBDIR/libpelshaqu.so.$version" "target/lib/libpelshaqu.so.$version"
    link "$LIBDIR/libpelshaqu.so.$major" "libpelshaqu.so.$version"
    link "$LIBDIR/libpelshaqu.so" "libpelshaqu.so.$major"
    file 644 "$INCLUDEDIR/pelshaqu.h" include/pelshaqu.h
    configs=$LIBDIR/pkgconfig
    # pkg-config has its own folder with '\ ' for a blank, and the others are to be like it.
    sed -e "s|@PREFIX@|$(way "$configs" "$PREFIX")|" -e "s|@LIBDIR@|$(way "$configs" "$LIBDIR")|" -e "s|@INCLUDEDIR@|$(way "$configs" "$INCLUDEDIR")|" \
        -e '/^[a-z]*=/s/ /\\ /g' -e "s|@VERSION@|$version|" pelshaqu.pc.in >"$work/pelshaqu.pc"
    file 644 "$configs/pelshaqu.pc" "$work/pelshaqu.pc"
    for source in docs/*.1 docs/*.3; do
        [ ! -e "$source" ] || page "$source"
    done
    [ ! -e completions/pelshaqu.bash ] || [ -z "$PYTHON" ] ||
        file 644 "$DATADIR/bash-completion/completions/pelshaqu" completions/pelshaqu.bash
    [ -z "$PYTHON" ] || python_package

    # Of an installation that was here before, the files that are no more, and the folders, which were made by it.
    if [ -e "$manifest" ]; then
        grep '^file ' "$manifest" | grep -vxF -f "$work/manifest" >"$work/old" || :
        paths "$work/old" >"$work/gone"
        while read -r kind path; do
            taken "$path"
        done <"$work/gone"
        grep '^folder ' "$manifest" >"$work/folders" || :
        cat "$work/manifest" >>"$work/folders"
        mv "$work/folders" "$work/manifest"
    fi
    $INSTALL -m 644 "$work/manifest" "$manifest"
    echo "installed: $(grep -c '^file ' "$manifest") files below $DESTDIR$PREFIX"
    if [ -n "$PYTHON" ]; then
        echo "the Python package is in $DESTDIR$PYTHONDIR"
    else
        echo "the Python package and its command are left out"
    fi
    ;;
uninstall)
    [ -e "$manifest" ] || fail "$manifest: not there, so there is nothing to remove"
    paths "$manifest" >"$work/paths"
    while read -r kind path; do
        [ "$kind" != file ] || taken "$path"
    done <"$work/paths"
    rm -f -- "$manifest"
    # The folders last, those below before those above.
    sed '1!G;h;$!d' "$work/paths" >"$work/reversed"
    while read -r kind path; do
        [ "$kind" != folder ] || rmdir -- "$path" 2>/dev/null || :
    done <"$work/reversed"
    echo "removed: $(grep -c '^file ' "$work/paths") files below $DESTDIR$PREFIX"
    ;;
*) fail "install or uninstall?" ;;
esac

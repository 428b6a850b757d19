#!/bin/sh
# Installs what `make` has built into scratch folders, without rt and git on the PATH, and tries it there: the files, the names and the
# flags of the shared library, hosts in C, C++ and Rust, the commands and their exit statuses, the Python package, the manual pages.
# Then it is removed, and nothing may be left.
set -eu
cd "$(dirname "$0")/.."
for built in target/bin/strips target/bin/grade target/staticlib/libpelshaqu.a target/lib/libpelshaqu.so.1 target/version; do
    [ -e "$built" ] || {
        echo "tests/install.sh: no $built; run 'make' first" >&2
        exit 1
    }
done
# Nothing of a make that runs this.
unset MAKEFLAGS MAKELEVEL PREFIX DESTDIR BINDIR LIBDIR INCLUDEDIR DATADIR MANDIR PYTHON PYTHONDIR INSTALL PKG_CONFIG_PATH || :
unset PELSHAQU_LIBRARY PYTHONPATH PYTHONDONTWRITEBYTECODE PYTHONPYCACHEPREFIX || :
work=$(mktemp -d)
trap 'rm -rf "$work"' EXIT
passed=0
failed=0

. tests/common

version=$(sed -n 1p target/version)
commit=$(sed -n 2p target/version)
kit=$(sed -n 3p target/version)
facts="$version, commit $commit, $kit"

# The version stands in VERSION, and wherever else it is written.
equal "target/version has the version" "$(cat VERSION)" "$version"
equal "CHANGELOG.md begins with the version" "$version" "$(sed -n 's/^## \([0-9.]*\).*/\1/p' CHANGELOG.md | head -n 1)"
if [ -e python/pyproject.toml ]; then
    equal "python/pyproject.toml has the version" "$version" "$(sed -n 's/^version = "\(.*\)"$/\1/p' python/pyproject.toml)"
fi

# The PATH without rt and git: each folder that has one of them is left out, and links to all else in it stand in.
bare=
count=0
# shellcheck disable=SC2086
(IFS=:; printf '%s\n' $PATH) >"$work/path"
while read -r folder; do
    if [ -e "$folder/rt" ] || [ -e "$folder/git" ]; then
        count=$((count + 1))
        mkdir "$work/path$count"
        find "$folder/" -mindepth 1 -maxdepth 1 ! -name rt ! -name git -exec ln -s -t "$work/path$count" {} +
        folder=$work/path$count
    fi
    bare=$bare${bare:+:}$folder
done <"$work/path"
for command in rt git; do
    got=$(PATH=$bare sh -c "command -v $command" || :)
    equal "the PATH has no $command" "" "$got"
done

# made NAME STATUS WORD..: make, with the words, on that PATH
made() {
    name=$1
    wanted=$2
    shift 2
    got=0
    PATH=$bare make --no-print-directory "$@" >"$work/out" 2>"$work/err" || got=$?
    [ "$got" = "$wanted" ] || cat "$work/err" >&2
    equal "make, $name: exit status" "$wanted" "$got"
}

# ran NAME STATUS COMMAND..: the command on that PATH, from another folder
ran() {
    name=$1
    wanted=$2
    shift 2
    got=0
    (cd "$work" && PATH=$bare "$@") >"$work/out" 2>"$work/err" </dev/null || got=$?
    equal "$name: exit status" "$wanted" "$got"
}

# files FOLDER: the files and links below it, without the folder of the Python package
files() {
    (cd "$1" && find . ! -type d ! -path '*/pelshaqu/*.py' ! -path '*/pelshaqu/py.typed' ! -name '*.pyc') | LC_ALL=C sort
}

# The names that the header declares, and those of the map.
declared() {
    sed -n 's/^uint32_t \([a-z_]*\)(.*/\1/p' include/pelshaqu.h | LC_ALL=C sort
}

mapped() {
    sed -n 's/^ *\([a-z_]*\);$/\1/p' scripts/libpelshaqu.map | LC_ALL=C sort
}

# The shared library: its names, its soname, what it needs, and how it is to be loaded.
shared() {
    nm -D --defined-only "$1" | awk '{ print $NF }' | LC_ALL=C sort >"$work/names"
    declared >"$work/declared"
    same "the names of the shared library are those of the header" "$work/declared" "$work/names"
    mapped >"$work/mapped"
    same "the names of the map are those of the header" "$work/declared" "$work/mapped"
    equal "how many there are" 15 "$(wc -l <"$work/names" | tr -d ' ')"
    nm -g --defined-only target/staticlib/libpelshaqu.a | awk 'NF == 3 { print $3 }' | LC_ALL=C sort >"$work/archived"
    same "the names of the archive are those of the header" "$work/declared" "$work/archived"
    LC_ALL=C readelf -dW "$1" >"$work/dynamic"
    equal "soname" "libpelshaqu.so.${version%%.*}" "$(sed -n 's/.*soname: \[\(.*\)\]/\1/p' "$work/dynamic")"
    equal "libraries that it needs" "libc.so.6" "$(sed -n 's/.*(NEEDED).*\[\(.*\)\]/\1/p' "$work/dynamic")"
    equal "no text relocations" 0 "$(grep -c TEXTREL "$work/dynamic" || :)"
    equal "bound when it is loaded" 1 "$(grep -c '(FLAGS_1).*NOW' "$work/dynamic" || :)"
    equal "nothing that says where to look for libraries" 0 "$(grep -c 'RPATH\|RUNPATH' "$work/dynamic" || :)"
    LC_ALL=C readelf -lW "$1" >"$work/segments"
    equal "a part that is read only once it is loaded" 1 "$(grep -c GNU_RELRO "$work/segments" || :)"
    equal "no stack that can be executed" "RW" "$(awk '$1 == "GNU_STACK" { print $7 }' "$work/segments")"
    equal "no part that can be written and executed" 0 "$(grep -c 'LOAD.* RWE ' "$work/segments" || :)"
}

# A host in C that is one in C++ too: plans job A and prints the plan, then grades it.
cat >"$work/host.c" <<'HOST'
#include <pelshaqu.h>
#include <stdio.h>

static unsigned field(const uint8_t *at) {
    return (unsigned)at[0] | (unsigned)at[1] << 8 | (unsigned)at[2] << 16 | (unsigned)at[3] << 24;
}

int main(void) {
    static const uint8_t job[5 * PELSHAQU_JOB_RECORD] = {
        PELSHAQU_MACHINE, 0, 0, 0, 1, 0, 0, 0, PELSHAQU_MACHINE, 0, 0, 0, 3, 0, 0, 0, /* speeds 1 and 3 */
        PELSHAQU_TILE, 0, 0, 0, 1, 0, 0, 0, PELSHAQU_TILE, 0, 0, 0, 3, 0, 0, 0, PELSHAQU_TILE, 0, 0, 0, 8, 0, 0, 0};
    uint8_t plan[2 * PELSHAQU_PLAN_RECORD];
    uint8_t grade[1];
    uint32_t number = plan_job(job, sizeof job, PELSHAQU_BISECTION, plan, sizeof plan);
    int p;
    if (number != 0) return (int)number;
    for (p = 0; p < 2; p++) {
        const uint8_t *record = plan + PELSHAQU_PLAN_RECORD * p;
        printf("machine %d tiles %u to %u load %u speed %u\n", p + 1, field(record) + 1, field(record + 4), field(record + 8), field(record + 12));
    }
    number = grade_plan(job, sizeof job, plan, sizeof plan, grade, sizeof grade);
    if (number != 0) return (int)number;
    printf("%s\n", grade[0] == PELSHAQU_BEST ? "best" : "not best");
    return 0;
}
HOST
cat >"$work/planned" <<'PLANNED'
machine 1 tiles 1 to 1 load 1 speed 1
machine 2 tiles 2 to 3 load 11 speed 3
best
PLANNED
cat >"$work/host.rs" <<'HOST'
extern "C" {
    fn pelshaqu_plan_job(job: *const u8, job_len: usize, method: u32, plan: *mut u8, plan_len: usize) -> u32;
    fn pelshaqu_grade_plan(job: *const u8, job_len: usize, plan: *const u8, plan_len: usize, grade: *mut u8, grade_len: usize) -> u32;
}

fn main() {
    let mut job = Vec::new();
    for (kind, value) in [(1u32, 1u32), (1, 3), (2, 1), (2, 3), (2, 8)] {
        job.extend(kind.to_le_bytes());
        job.extend(value.to_le_bytes());
    }
    let mut plan = [0u8; 32];
    let mut grade = [0u8; 1];
    // SAFETY: pointers and lengths are those of the three buffers, which do not overlap.
    let numbers = unsafe {
        [
            pelshaqu_plan_job(job.as_ptr(), job.len(), 3, plan.as_mut_ptr(), plan.len()),
            pelshaqu_grade_plan(job.as_ptr(), job.len(), plan.as_ptr(), plan.len(), grade.as_mut_ptr(), grade.len()),
        ]
    };
    assert_eq!(numbers, [0, 0]);
    for (p, record) in plan.chunks(16).enumerate() {
        let field = |k: usize| u32::from_le_bytes(record[4 * k..4 * k + 4].try_into().unwrap());
        println!("machine {} tiles {} to {} load {} speed {}", p + 1, field(0) + 1, field(1), field(2), field(3));
    }
    println!("{}", if grade[0] == 1 { "best" } else { "not best" });
}
HOST

# says NAME COMMAND..: the host prints the plan
says() {
    name=$1
    shift
    got=0
    "$@" >"$work/said" 2>&1 || got=$?
    equal "$name: exit status" 0 "$got"
    same "$name: the plan" "$work/planned" "$work/said"
}

# needed HOST: whether it needs the shared library
needed() {
    LC_ALL=C readelf -dW "$1" | grep -c 'NEEDED.*libpelshaqu' || :
}

# hosts PREFIX LIBDIR: hosts in C, C++ and Rust with the flags of pkg-config, which are words of the shell
hosts() {
    export PKG_CONFIG_PATH="$2/pkgconfig"
    flags=$(pkg-config --cflags pelshaqu)
    libraries=$(pkg-config --libs pelshaqu)
    eval "folder=$(pkg-config --variable=libdir pelshaqu)"
    equal "pkg-config: version" "$version" "$(pkg-config --modversion pelshaqu)"
    equal "pkg-config: where the library is" "$(realpath "$2")" "$(realpath "$folder" 2>&1 || :)"
    strict="-Wall -Wextra -Wpedantic -Werror -O2"
    # As from elsewhere: the folder of the checkout is no help.
    (
        cd "$work"
        eval "cc -std=c99 $strict -o shared host.c $flags $libraries"
        eval "cc -std=c99 $strict -o static host.c $flags \"\$2/libpelshaqu.a\""
        eval "c++ -std=c++11 $strict -x c++ -o plus host.c -x none $flags $libraries"
        rustc --edition 2021 -O -D warnings -L native="$2" -l static=pelshaqu -o rusty host.rs
    )
    equal "C, the shared library: needed" 1 "$(needed "$work/shared")"
    equal "C, the archive: the shared library is not needed" 0 "$(needed "$work/static")"
    says "C, the shared library" env LD_LIBRARY_PATH="$2" "$work/shared"
    says "C, the archive" "$work/static"
    says "C++" env LD_LIBRARY_PATH="$2" "$work/plus"
    says "Rust, the archive" "$work/rusty"
    rm -f "$work/shared" "$work/static" "$work/plus" "$work/rusty"
}

# commands BINDIR: strips and grade as they are installed
commands() {
    examples=$PWD/examples
    ran "strips, A" 0 "$1/strips" "$examples/A.job"
    same "strips, A: the listing" examples/A.txt "$work/out"
    equal "strips, A: standard error" "" "$(cat "$work/err")"
    got=0
    PATH=$bare "$1/strips" <examples/S.job >"$work/out" || got=$?
    equal "strips, standard input: exit status" 0 "$got"
    same "strips, standard input: the listing" examples/S.txt "$work/out"
    ran "strips, a refusal" 1 "$1/strips" /dev/null
    equal "strips, a refusal: line" "refused 7" "$(cat "$work/out")"
    ran "strips, no such file" 2 "$1/strips" "$work/none"
    equal "strips, no such file: said so" "strips: $work/none: no such file" "$(cat "$work/err")"
    ran "strips, two files" 2 "$1/strips" "$examples/A.job" "$examples/B.job"
    equal "strips, two files: said so" "strips: more than one file; strips --help says more" "$(cat "$work/err")"
    ran "strips, unknown option" 2 "$1/strips" --fast
    ran "grade, best" 0 "$1/grade" "$examples/A.job" "$examples/A-best.plan"
    equal "grade, best: line" best "$(cat "$work/out")"
    ran "grade, valid" 0 "$1/grade" "$examples/A.job" "$examples/A-valid.plan"
    equal "grade, valid: line" valid "$(cat "$work/out")"
    ran "grade, a refusal" 1 "$1/grade" "$examples/A.job" "$examples/A-untrue.plan"
    equal "grade, a refusal: line" "refused 13" "$(cat "$work/out")"
    ran "grade, no such plan" 2 "$1/grade" "$examples/A.job" "$work/none"
    ran "grade, one file" 2 "$1/grade" "$examples/A.job"
    equal "grade, one file: said so" "grade: two files are wanted, a job and its plan; grade --help says more" "$(cat "$work/err")"
    for command in strips grade; do
        ran "$command --version" 0 "$1/$command" --version
        equal "$command --version: its line" "$command (pelshaqu) $facts" "$(cat "$work/out")"
        ran "$command --help" 0 "$1/$command" --help
        equal "$command --help: first word" "usage: $command" "$(head -n 1 "$work/out" | cut -d ' ' -f 1,2)"
        equal "$command --help: nothing of a checkout" "" "$(grep -e '\./' -e 'first use' -e prove "$work/out" || :)"
        # All but the paragraph on the first use, and './' before the commands, is the checkout's help.
        "./$command" --help | sed 's|\./||g' | awk 'BEGIN { RS = ""; ORS = "\n\n" } !/^The first use proves/' >"$work/help"
        awk 'BEGIN { RS = ""; ORS = "\n\n" } 1' "$work/out" >"$work/out2"
        same "$command --help: as in a checkout" "$work/help" "$work/out2"
    done
    # By a link that stands elsewhere.
    ln -sf "$1/strips" "$work/linked"
    ran "strips by a link" 0 "$work/linked" "$examples/A.job"
    same "strips by a link: the listing" examples/A.txt "$work/out"
    rm "$work/linked"
}

# package FOLDER BINDIR LIBDIR: the Python package, which finds the library, and its command
package() {
    python3 - "$1" "$3" >"$work/out" 2>&1 <<'PYTHON' || :
import ctypes, os, sys
sys.path.insert(0, sys.argv[1])
from pelshaqu import _build
import pelshaqu
library = os.path.join(os.path.dirname(_build.__file__), _build.LIBRARY)
print(os.path.samefile(os.path.dirname(pelshaqu.__file__), os.path.join(sys.argv[1], "pelshaqu")), not os.path.isabs(_build.LIBRARY))
print(os.path.samefile(library, os.path.join(sys.argv[2], os.path.basename(library))), os.path.basename(library))
print(f"{_build.VERSION}, commit {_build.COMMIT}, {_build.KIT}")
print(ctypes.CDLL(library).plan_job(None, ctypes.c_size_t(0), ctypes.c_uint32(1), None, ctypes.c_size_t(0)))
PYTHON
    printf '%s\n' "True True" "True libpelshaqu.so.${version%%.*}" "$facts" 7 >"$work/wanted"
    same "Python: the package finds its library" "$work/wanted" "$work/out"
    equal "Python: what it makes of a module, which has to go too" yes "$([ -n "$(find "$1/pelshaqu" -name '_build.*.pyc')" ] && echo yes || echo no)"
    if [ -e python/pelshaqu/command.py ]; then
        ran "pelshaqu --version" 0 "$2/pelshaqu" --version
        equal "pelshaqu --version: its line" "pelshaqu $facts" "$(sed 's/^pelshaqu (pelshaqu) /pelshaqu /' "$work/out")"
        ran "pelshaqu plan" 0 "$2/pelshaqu" plan --listing "$PWD/examples/A.job"
        same "pelshaqu plan: the listing" examples/A.txt "$work/out"
        ln -sf "$2/pelshaqu" "$work/linked"
        ran "pelshaqu by a link" 0 "$work/linked" --version
        rm "$work/linked"
    else
        echo "tests/install.sh: SKIPPED the command pelshaqu, which has no python/pelshaqu/command.py"
    fi
}

# pages MANDIR: no warning of groff, the version, and nothing of a checkout
pages() {
    for page in "$1"/man*/*; do
        equal "${page##*/}: nothing of a checkout" "" "$(grep -e '\./' -e 'first use' -e CHECKOUT "$page" || :)"
        equal "${page##*/}: the version" 1 "$(grep -c "^\.TH .*$version" "$page" || :)"
        if command -v groff >/dev/null; then
            equal "${page##*/}: groff's warnings" "" "$(groff -man -ww -z -Tutf8 "$page" 2>&1)"
        fi
    done
    for page in strips grade; do
        # What goes is the section on a checkout, and no more.
        equal "$page.1: the sections" "$(sed -n 's/^\.SH //p' "docs/$page.1" | grep -v '^IN A CHECKOUT$')" "$(sed -n 's/^\.SH //p' "$1/man1/$page.1")"
        if command -v man >/dev/null && command -v groff >/dev/null; then
            equal "man $page" "NAME" "$(MANPATH="$1" man -P cat "$page" 2>/dev/null | sed -n '3p')"
        fi
    done
    command -v groff >/dev/null || echo "tests/install.sh: SKIPPED the look of the manual pages, for which there is no groff"
}

# In /usr, below a scratch folder.
one=$work/one
made "install in /usr" 0 install DESTDIR="$one" PREFIX=/usr
{
    for name in bin/strips bin/grade bin/pelshaqu include/pelshaqu.h lib/libpelshaqu.a lib/libpelshaqu.so "lib/libpelshaqu.so.${version%%.*}" \
        "lib/libpelshaqu.so.$version" lib/pkgconfig/pelshaqu.pc lib/pelshaqu/strips lib/pelshaqu/grade lib/pelshaqu/program.sh lib/pelshaqu/place.sh \
        lib/pelshaqu/version lib/pelshaqu/manifest; do
        echo "./usr/$name"
    done
    for page in docs/*.1 docs/*.3; do
        [ ! -e "$page" ] || echo "./usr/share/man/man${page##*.}/${page##*/}"
    done
    [ ! -e completions/pelshaqu.bash ] || echo ./usr/share/bash-completion/completions/pelshaqu
} | LC_ALL=C sort >"$work/listed"
files "$one" >"$work/found"
same "the files" "$work/listed" "$work/found"
for page in strips.1 grade.1; do
    equal "$page is among them" yes "$([ -e "$one/usr/share/man/man1/$page" ] && echo yes || echo no)"
done
equal "libpelshaqu.so" "libpelshaqu.so.${version%%.*}" "$(readlink "$one/usr/lib/libpelshaqu.so")"
equal "libpelshaqu.so.${version%%.*}" "libpelshaqu.so.$version" "$(readlink "$one/usr/lib/libpelshaqu.so.${version%%.*}")"
same "the archive is the one that was built" target/staticlib/libpelshaqu.a "$one/usr/lib/libpelshaqu.a"
same "the header is the repository's" include/pelshaqu.h "$one/usr/include/pelshaqu.h"
equal "modes: what can be run" "./bin/grade ./bin/pelshaqu ./bin/strips ./lib/pelshaqu/grade ./lib/pelshaqu/strips" \
    "$(cd "$one/usr" && find . -type f -perm /111 | LC_ALL=C sort | tr '\n' ' ' | sed 's/ $//')"
equal "modes: all can be read" "" "$(find "$one/usr" -type f ! -perm -444)"
equal "no file says where the scratch folder or the checkout is" "" "$(grep -rlF -e "$work" -e "$PWD" "$one/usr" || :)"
python=$(dirname "$(dirname "$(find "$one" -name _build.py)")")
(cd python/pelshaqu && find . -name __pycache__ -prune -o -type f ! -name '*.pyc' -print) | sed '/^\.\/tests\//d' | LC_ALL=C sort >"$work/wanted"
(cd "$python/pelshaqu" && find . -type f ! -name _build.py) | LC_ALL=C sort >"$work/found"
same "the modules" "$work/wanted" "$work/found"
equal "Python looks there: its own prefix" yes "$(python3 -I -c 'import subprocess, sys
print("yes" if subprocess.run([sys.executable, "scripts/pythondir.py", sys.prefix], capture_output=True, text=True).stdout.strip() in sys.path else sys.path)')"
shared "$one/usr/lib/libpelshaqu.so"
hosts "$one/usr" "$one/usr/lib"
commands "$one/usr/bin"
package "$python" "$one/usr/bin" "$one/usr/lib"
pages "$one/usr/share/man"
if [ -e examples/rust-host ]; then
    got=0
    PELSHAQU_LIB_DIR="$one/usr/lib" cargo run --quiet --offline --manifest-path examples/rust-host/Cargo.toml --target-dir "$work/cargo" >"$work/out" 2>"$work/err" || {
        got=$?
        cat "$work/err" >&2
    }
    equal "examples/rust-host: exit status" 0 "$got"
    equal "examples/rust-host: it says something" yes "$([ -s "$work/out" ] && echo yes || echo no)"
else
    echo "tests/install.sh: SKIPPED examples/rust-host, which is not here"
fi
if command -v rt >/dev/null; then
    equal "the kit of --version" "$(rt version)" "$kit"
fi

# Moved as a whole, and without its program.
mv "$one" "$work/moved"
commands "$work/moved/usr/bin"
package "$work/moved${python#"$one"}" "$work/moved/usr/bin" "$work/moved/usr/lib"
mv "$work/moved/usr/lib/pelshaqu/strips" "$work/kept"
ran "strips without its program" 3 "$work/moved/usr/bin/strips" "$PWD/examples/A.job"
equal "strips without its program: nothing listed" "" "$(cat "$work/out")"
printf '#!/bin/sh\necho nonsense\n' >"$work/moved/usr/lib/pelshaqu/strips"
chmod +x "$work/moved/usr/lib/pelshaqu/strips"
ran "strips with another program" 3 "$work/moved/usr/bin/strips" "$PWD/examples/A.job"
made "uninstall what was moved" 0 uninstall DESTDIR="$work/moved" PREFIX=/usr
equal "uninstalled: nothing is left" "" "$(find "$work/moved" -mindepth 1)"
made "uninstall once more" 2 uninstall DESTDIR="$work/moved" PREFIX=/usr

# Another prefix, with blanks, beside what others have put there; the library and the Python package where they are asked for.
two="$work/a blank/two"
prefix="/else where/tools"
mkdir -p "$two$prefix/bin" "$two$prefix/share/man/man1" "$two$prefix/lib/far/pelshaqu" "$two/py/pelshaqu"
echo other >"$two$prefix/bin/other"
echo mine >"$two/py/pelshaqu/mine.py"
(cd "$two" && find . | LC_ALL=C sort) >"$work/before"
made "install the first time" 0 install DESTDIR="$two" PREFIX="$prefix" LIBDIR="$prefix/lib/far" INCLUDEDIR="$prefix/in clude" PYTHONDIR=/py/former
made "install over it" 0 install DESTDIR="$two" PREFIX="$prefix" LIBDIR="$prefix/lib/far" INCLUDEDIR="$prefix/in clude" PYTHONDIR=/py
equal "installed over it: the former package is gone" "" "$(find "$two/py/former" -type f)"
{
    sed 's|^\./usr/lib/|./lib/far/|;s|^\./usr/|./|;s|^\./include/|./in clude/|' "$work/listed"
    echo ./bin/other
} | LC_ALL=C sort >"$work/wanted"
files "$two$prefix" >"$work/found"
same "blanks: the files" "$work/wanted" "$work/found"
shared "$two$prefix/lib/far/libpelshaqu.so"
hosts "$two$prefix" "$two$prefix/lib/far"
commands "$two$prefix/bin"
package "$two/py" "$two$prefix/bin" "$two$prefix/lib/far"
made "uninstall" 0 uninstall DESTDIR="$two" PREFIX="$prefix" LIBDIR="$prefix/lib/far"
(cd "$two" && find . | LC_ALL=C sort) >"$work/after"
same "blanks, uninstalled: what others have put there, and nothing else" "$work/before" "$work/after"

# Without Python, and where names are not to be had.
made "install without Python" 0 install DESTDIR="$work/three" PREFIX=/usr PYTHON=
equal "without Python: none of it" "" "$(find "$work/three" -name '*.py' -o -path '*/bin/pelshaqu')"
ran "without Python: strips" 0 "$work/three/usr/bin/strips" "$PWD/examples/A.job"
made "uninstall without Python" 0 uninstall DESTDIR="$work/three" PREFIX=/usr PYTHON=
equal "without Python, uninstalled: nothing is left" "" "$(find "$work/three" -mindepth 1)"
for wrong in usr '/a"b' '/a&b' '/a|b'; do
    made "install in $wrong" 2 install DESTDIR="$work/four" PREFIX="$wrong"
    equal "install in $wrong: nothing is installed" "" "$(find "$work/four" -type f 2>/dev/null || :)"
done

# A checkout with a source that has changed needs rt; one in which something was not built too.
mkdir -p "$work/root/crates"
cp -R Makefile VERSION scripts crates.txt "$work/root/"
mkdir "$work/root/target"
cp -R target/bin target/staticlib target/lib target/version "$work/root/target/"
find "$work/root/crates" "$work/root/crates.txt" -exec touch -t 200001010000 {} +
made "nothing has changed" 0 -C "$work/root"
touch "$work/root/crates/new"
made "a source has changed" 2 -C "$work/root"
equal "a source has changed: rt is missed" 1 "$(grep -c "'rt' of the Rattle kit is not on the PATH" "$work/err")"
touch -t 200001010000 "$work/root/crates/new" "$work/root/crates"
made "a source as it was" 0 -C "$work/root"
same "without git and rt the version stays as it was noted" target/version "$work/root/target/version"
rm "$work/root/target/version"
made "no version noted" 0 -C "$work/root"
printf '%s\n' "$version" unknown "kit unknown" >"$work/unknown"
same "without git and rt, and none noted, it is unknown" "$work/unknown" "$work/root/target/version"
if command -v git >/dev/null; then
    (cd "$work/root" && git init -q && git add VERSION && git -c user.name=x -c user.email=x@x commit -qm x)
    short=$(git -C "$work/root" rev-parse --short=7 HEAD)
    make --no-print-directory -C "$work/root" >/dev/null
    equal "the commit" "$short" "$(sed -n 2p "$work/root/target/version")"
    echo 2.0.0 >"$work/root/VERSION"
    make --no-print-directory -C "$work/root" >/dev/null
    equal "the commit of a changed checkout, and its version" "2.0.0 $short-dirty" "$(sed -n '1p;2p' "$work/root/target/version" | tr '\n' ' ' | sed 's/ $//')"
    equal "the soname of another version" "libpelshaqu.so.2" "$(LC_ALL=C readelf -dW "$work/root/target/lib/libpelshaqu.so.2.0.0" | sed -n 's/.*soname: \[\(.*\)\]/\1/p')"
else
    echo "tests/install.sh: SKIPPED the commit, for which there is no git"
fi
rm "$work/root/target/staticlib/libpelshaqu.a"
made "no archive" 2 -C "$work/root"

if [ "$failed" -ne 0 ]; then
    echo "tests/install.sh: $failed of $((passed + failed)) checks failed" >&2
    exit 1
fi
echo "tests/install.sh: $passed checks passed"

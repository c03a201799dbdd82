#!/usr/bin/env bash
# A release as its user finds it, with stand-ins for the archives, so that nothing is proved here: the program answers from
# the tar and from the package, help and mistakes too; the man page and the completions name each word and option; the
# versions agree; what make installs it takes away again; and a second release has the same bytes. It needs gcc and the
# compiler for 64-bit ARM, and says so if they are missing.
set -u
cd "$(dirname "$0")/.."
for tool in gcc aarch64-linux-gnu-gcc aarch64-linux-gnu-ar aarch64-linux-gnu-objcopy; do
    if ! $tool --version >/dev/null 2>&1; then
        echo "released: nothing was tried: $tool doesn't run here" >&2
        exit 0
    fi
done
program=${ENVY-$(./envy --program)} || exit 1
work=$(mktemp -d "${TMPDIR:-/tmp}/envy-released.XXXXXX") || exit 1
trap 'rm -rf "$work"' EXIT
failures=0

fail() {
    echo "released: $*" >&2
    failures=$((failures + 1))
}

# in a clone of its own, so that out/ here stays as it is
git clone -q . "$work/clone" || exit 1
cp release.sh envy VERSION "$work/clone" && cp words/* "$work/clone/words" && cp c/Makefile "$work/clone/c" && cp clients/Makefile "$work/clone/clients"
mkdir -p "$work/from/x86_64" "$work/from/aarch64"
echo 'int envy_stand_in;' >"$work/stand_in.c"
# (what the C beside the archive calls has to be there for the shared object)
sed -n 's/^pub extern "C" fn \([a-z_]*\)(.*/int \1;/p' crates/envy_library/src/*.rt >>"$work/stand_in.c"
gcc -fPIC -c -o "$work/x86_64.o" "$work/stand_in.c"
aarch64-linux-gnu-gcc -fPIC -c -o "$work/aarch64.o" "$work/stand_in.c"
for name in library parted; do
    ar rcs "$work/from/x86_64/libenvy_$name.a" "$work/x86_64.o"
    aarch64-linux-gnu-ar rcs "$work/from/aarch64/libenvy_$name.a" "$work/aarch64.o"
done
cp "$program" "$work/from/program"
version=$(cat VERSION)
(cd "$work/clone" && ./release.sh --from "$work/from" && cksum out/* >"$work/first" && ./release.sh --from "$work/from" && cksum out/* >"$work/second") \
    >"$work/said" 2>&1 || fail "no release: $(tail -n 3 "$work/said")"
cmp "$work/first" "$work/second" || fail "a second release has other bytes"

# answers NAME CALL: the program of a release, by the first sample; its help and a mistake
answers() {
    "$2" run <examples/first.trace 2>"$work/text" | cmp - examples/first.replies || fail "$1: other replies than in this repository"
    [ ! -s "$work/text" ] || fail "$1: $(cat "$work/text")"
    [ "$("$2" --version | head -n 1)" = "envy $version" ] || fail "$1: another version"
    "$2" help run | grep -q -e '--pages' || fail "$1: no help"
    [ "$("$2" run --page 8 2>&1 </dev/null | head -n 1)" = 'envy: --page is no option (is it --pages?)' ] || fail "$1: a mistake isn't named"
    "$2" --prove >"$work/out" 2>&1 && fail "$1: something is proved"
}
tar -C "$work" -xzf "$work/clone/out/envy-$version.tar.gz" || fail "the tar isn't one"
here=$work/envy-$version
answers "the tar" "$here/envy"
ln -s "$here/envy" "$work/linked"
answers "a link to it" "$work/linked"
# in a root that has nothing but what the package asks for: bash, an awk, the tools that each Debian has, and what they load
bare() {
    local tool path
    for tool in bash awk env cat head tr od grep readlink; do
        path=$(readlink -f "$(command -v $tool)")
        mkdir -p "$work/bare/bin" && cp "$path" "$work/bare/bin/$tool"
        ldd "$path" | grep -o '/[^ ]*' | while read -r path; do cp --parents -L -n "$path" "$work/bare"; done
    done
    ldd "$here/program" | grep -o '/[^ ]*' | while read -r path; do cp --parents -L -n "$path" "$work/bare"; done
    mkdir -p "$work/bare/usr/bin" "$work/bare/dev" && ln -s ../../bin/env "$work/bare/usr/bin/env" && : >"$work/bare/dev/null"
    cp -r "$here" "$work/bare/envy" && cp examples/first.trace "$work/bare"
    unshare -r chroot "$work/bare" /bin/env -i PATH=/bin /envy/envy run <examples/first.trace
}
if unshare -r true 2>/dev/null; then
    bare 2>"$work/text" | cmp - examples/first.replies || fail "a bare root: $(cat "$work/text")"
else
    echo "released: no bare root was tried: unshare doesn't run here" >&2
fi
headers=$(printf '#include <sqlite3ext.h>\n#include <nbdkit-plugin.h>\n' | gcc -DNBDKIT_API_VERSION=2 -E - >/dev/null 2>&1 && echo here)
if command -v dpkg-deb >/dev/null; then
    dpkg-deb -x "$work/clone/out/envy_${version}_amd64.deb" "$work/installed" || fail "the package isn't one"
    answers "the package" "$work/installed/usr/bin/envy"
    for file in usr/lib/libenvy_parted.a usr/include/envy.h usr/share/envy/aarch64/libenvy.a usr/share/doc/envy/copyright \
        usr/lib/libenvy.so usr/share/envy/aarch64/libenvy.so.0 usr/lib/python3/dist-packages/envy/memory.py \
        usr/share/doc/envy/changelog.gz usr/share/man/man1/envy.1.gz usr/share/bash-completion/completions/envy \
        ${headers:+usr/lib/envy/envyvfs.so usr/lib/x86_64-linux-gnu/nbdkit/plugins/nbdkit-envy-plugin.so}; do
        [ -s "$work/installed/$file" ] || fail "the package has no $file"
    done
else
    echo "released: no package was tried: dpkg-deb is not on the path" >&2
fi
for file in LICENSE NOTICE CHANGELOG.md rust/Cargo.toml lib/x86_64/libenvy_parted.a lib/aarch64/libenvy_parted.a include/envy_parted.h \
    lib/x86_64/libenvy.so.0 lib/aarch64/libenvy.so include/envy_old.h include/envy_file.h; do
    [ -s "$here/$file" ] || fail "the tar has no $file"
done
# the clients, built if the headers of SQLite and nbdkit are here, and once more by the user of the tar
if [ -n "$headers" ]; then
    for file in envyvfs.so libenvyvfs.a envy.so; do
        [ -s "$here/lib/x86_64/$file" ] || fail "the tar has no $file"
    done
    make -s -C "$here/clients" PREFIX="$work/prefix" install >"$work/said" 2>&1 || fail "no clients are made of the tar: $(tail -n 3 "$work/said")"
    for file in lib/envy/envyvfs.so lib/libenvyvfs.a include/envyvfs.h lib/nbdkit/plugins/nbdkit-envy-plugin.so; do
        [ -s "$work/prefix/$file" ] || fail "no $file was installed"
    done
    make -s -C "$here/clients" PREFIX="$work/prefix" uninstall
    [ -z "$(find "$work/prefix" ! -type d)" ] || fail "uninstall left $(find "$work/prefix" ! -type d | head -n 3)"
fi
grep -q "^version = \"$version\"" "$here/rust/Cargo.toml" || fail "the Rust package has another version"
grep -q "^__version__ = \"$version\"" "$here/clients/python/envy/__init__.py" || fail "the Python package has another version"
grep -q "ENVY_VERSION \"$version\"" "$here/include/envy_text.h" || fail "the header has another version"
grep -q "^## $version" CHANGELOG.md || fail "CHANGELOG.md has nothing of $version"

# the package for Python finds the library of the tar
if [ "$(uname -m)" = x86_64 ] && python3 --version >/dev/null 2>&1; then
    said=$(cd "$here" && PYTHONPATH=clients/python python3 -B -c 'import envy; print(envy.library_version())' 2>&1)
    [ "$said" = "$version" ] || fail "Python: $said"
fi

# completed WORDS..: what is offered for the last word
completed() {
    bash -c '. "$1"; shift; COMP_WORDS=("$@"); COMP_CWORD=$((${#COMP_WORDS[@]} - 1)); _envy; echo "${COMPREPLY[*]}"' - "$here/completions/envy" "$@"
}
while IFS='|' read -r word takes; do
    grep -q "^\.B $word\$" "$here/man/man1/envy.1" || fail "the man page has no $word"
    case " $(completed envy '') " in *" $word "*) ;; *) fail "$word is not offered" ;; esac
    offered=$(completed envy "$word" --)
    [ "$offered" = "$(for it in $takes; do echo "--$it"; done | paste -s -d ' ')" ] || fail "$word: other options are offered: $offered"
done < <(awk -f words/words.awk -- words/table list)
for option in $(sed -n 's/^option | \([a-z]*\) .*/\1/p' words/table); do
    grep -q -F ".B \\-\\-$option" "$here/man/man1/envy.1" || fail "the man page has no --$option"
done
[ "$(completed envy run --policy li)" = lifetime ] || fail "no policy is offered"

# what is installed goes again
make -s -C "$work/clone/c" LIBRARY="$work/from/x86_64/libenvy_library.a" PARTED="$work/from/x86_64/libenvy_parted.a" \
    PREFIX="$work/prefix" install || fail "nothing was installed"
[ "$(find "$work/prefix" -type f | wc -l)" -ge 18 ] || fail "too little was installed"
make -s -C "$work/clone/c" PREFIX="$work/prefix" uninstall
[ -z "$(find "$work/prefix" ! -type d)" ] || fail "uninstall left $(find "$work/prefix" ! -type d | head -n 3)"

[ "$failures" = 0 ] && echo "released: all is as it must be"
[ "$failures" = 0 ]

#!/usr/bin/env bash
# Makes a release for somebody without the kit: out/envy-VERSION.tar.gz, and out/envy_VERSION_amd64.deb if dpkg-deb is on
# the path. Both have the program, the headers, the archives and shared objects for x86-64 and 64-bit ARM, the Rust package,
# the clients, built for x86-64 if SQLite's and nbdkit's headers are here, a man page, completions for bash, the licence
# and the changes.
#
#   ./release.sh                 proves and builds what goes in, over the crates below as they are (./envy --prove, .ci/run)
#   ./release.sh --from FOLDER   takes FOLDER/program and FOLDER/x86_64, FOLDER/aarch64 with the archives of `rt lib`
#   ./release.sh --version       writes VERSION into the Rust and Python packages and the header, and makes nothing
#
# It needs gcc, aarch64-linux-gnu-gcc and, without --from, the kit.
set -eu
cd "$(dirname "$0")"
version=$(cat VERSION)
libraries='envy_library envy_parted'
from=
case ${1-} in
'') ;;
--from) from=$(cd "${2:?release: --from needs a folder}" && pwd) ;;
--version)
    sed -i "s/^version = \"[^\"]*\"/version = \"$version\"/" rust/Cargo.toml
    sed -i "s/^#define ENVY_VERSION \"[^\"]*\"/#define ENVY_VERSION \"$version\"/" c/envy_text.h
    sed -i "s/^__version__ = \"[^\"]*\"/__version__ = \"$version\"/" clients/python/envy/__init__.py
    exit
    ;;
*) sed -n '2,11s/^# \{0,1\}//p' "$0" >&2 && exit 2 ;;
esac
for tool in gcc aarch64-linux-gnu-gcc aarch64-linux-gnu-ar aarch64-linux-gnu-objcopy; do
    if ! $tool --version >/dev/null 2>&1; then
        echo "release: $tool doesn't run here" >&2
        exit 2
    fi
done
work=$(mktemp -d "${TMPDIR:-/tmp}/envy-release.XXXXXX")
trap 'rm -rf "$work"' EXIT
root=$work/envy-$version
mkdir "$root"
# the same bytes for the same sources and tools
SOURCE_DATE_EPOCH=$(git log -1 --format=%ct 2>/dev/null || echo 0)
export SOURCE_DATE_EPOCH

# built: proves and builds the libraries and the program, and lays them out as --from has them
built() {
    local name
    # shellcheck disable=SC2086
    examples/library/build.py $libraries --also=aarch64
    ./envy --stands 2>/dev/null || ./envy --prove
    from=$work/from
    mkdir -p "$from/x86_64" "$from/aarch64"
    for name in $libraries; do
        cp "crates/$name/out/lib$name.a" "$from/x86_64"
        cp "crates/$name/out/aarch64/lib$name.a" "$from/aarch64"
    done
    cp "$(./envy --program)" "$from/program"
}

# archives PROCESSOR WORD..: those of a processor, with the C beside them, made by make's words
archives() {
    local processor=$1 made=$work/$1 at=$from/$1
    shift
    mkdir -p "$root/lib/$processor"
    make -s -C c OUT="$made" LIBRARY="$at/libenvy_library.a" PARTED="$at/libenvy_parted.a" "$@" all
    cp -P "$made"/*.a "$made"/*.so* "$root/lib/$processor"
}

# clients WORD..: a VFS of SQLite and a plugin of nbdkit for x86-64, made by make's words over the archives of here
clients() {
    make -s -C clients OUT="$work/clients" C=../c ARCHIVES="$work/x86_64" CFLAGS='-O2 -std=gnu11 -Wall -Wextra -fPIC' "$@"
}

# pages: what is read and typed
pages() {
    local words=words/words.awk
    mkdir -p "$root/man/man1" "$root/completions" "$root/docs"
    awk -f $words -- words/table manual "$version" "$(date -u -d "@$SOURCE_DATE_EPOCH" +%F)" >"$root/man/man1/envy.1"
    awk -f $words -- words/table bash >"$root/completions/envy"
    cp LICENSE NOTICE CHANGELOG.md VERSION "$root"
    cp docs/*.md "$root/docs" && mkdir "$root/docs/pictures" && cp docs/pictures/*.svg docs/pictures/*.csv "$root/docs/pictures"
    { cat c/LINKING.md && printf '\nThis release was proved with `%s`.\n' "$(grep -m 1 -o 'rattle-kit-[^`]*' README.md)"; } >"$root/README.md"
}

# package: the tree of a Debian package, from the tree of the tar
package() {
    local deb=$work/deb doc
    doc=$deb/usr/share/doc/envy
    mkdir -p "$deb/DEBIAN" "$deb/usr/bin" "$deb/usr/lib/envy" "$deb/usr/share/man/man1" "$doc" \
        "$deb/usr/share/bash-completion/completions" "$deb/usr/share/envy"
    make -s -C c OUT="$work/x86_64" LIBRARY="$from/x86_64/libenvy_library.a" PARTED="$from/x86_64/libenvy_parted.a" \
        DESTDIR="$deb" PREFIX=/usr install
    clients DESTDIR="$deb" PREFIX=/usr NBDKIT_PLUGINS=/usr/lib/x86_64-linux-gnu/nbdkit/plugins install
    cp -r "$root/envy" "$root/program" "$root/words" "$root/VERSION" "$root/README.md" "$root/examples" "$deb/usr/lib/envy"
    ln -s ../lib/envy/envy "$deb/usr/bin/envy"
    cp -r "$root/lib/aarch64" "$root/rust" "$deb/usr/share/envy"
    [ ! -d "$root/clients" ] || cp -r "$root/clients" "$deb/usr/share/envy"
    mkdir -p "$deb/usr/lib/python3/dist-packages"
    [ ! -d "$root/clients/python" ] || cp -r "$root/clients/python/envy" "$deb/usr/lib/python3/dist-packages"
    echo 'activate-noawait ldconfig' >"$deb/DEBIAN/triggers"
    cp -r "$root/docs" "$root/README.md" "$doc"
    gzip -9n <"$root/man/man1/envy.1" >"$deb/usr/share/man/man1/envy.1.gz"
    gzip -9n <CHANGELOG.md >"$doc/changelog.gz"
    cp NOTICE "$doc/copyright" && cat LICENSE >>"$doc/copyright"
    cp "$root/completions/envy" "$deb/usr/share/bash-completion/completions/envy"
    cat >"$deb/DEBIAN/control" <<CONTROL
Package: envy
Version: $version
Architecture: amd64
Maintainer: Gusperru maintainers <maintainers@users.noreply.gusperru.example>
Depends: libc6, bash, mawk | gawk
Suggests: sqlite3, nbdkit, python3
Section: devel
Priority: optional
Installed-Size: $(du -k -s "$deb/usr" | cut -f 1)
Description: a proved, non-volatile main memory of flash
 Loads, stores and transactions of 64-bit words over flash and battery-backed SRAM, in a program and as libraries for C and
 Rust. After any failure of power the answers are those of a plain array, which is proved.
CONTROL
    find "$deb" -exec touch -h -d "@$SOURCE_DATE_EPOCH" {} +
    dpkg-deb --root-owner-group --build "$deb" "out/envy_${version}_amd64.deb" >/dev/null
    echo "release: out/envy_${version}_amd64.deb, $(stat -c %s "out/envy_${version}_amd64.deb") bytes"
}

[ -n "$from" ] || built
archives x86_64
clients all
for file in envyvfs.so libenvyvfs.a envy.so; do
    [ ! -e "$work/clients/$file" ] || cp "$work/clients/$file" "$root/lib/x86_64"
done
[ -e "$root/lib/x86_64/envyvfs.so" ] || echo "release: no VFS of SQLite: libsqlite3-dev isn't here" >&2
[ -e "$root/lib/x86_64/envy.so" ] || echo "release: no plugin of nbdkit: nbdkit-plugin-dev isn't here" >&2
archives aarch64 CC=aarch64-linux-gnu-gcc AR=aarch64-linux-gnu-ar OBJCOPY=aarch64-linux-gnu-objcopy
mkdir "$root/include" "$root/ports" "$root/words" "$root/examples"
make -s -C c headers PARTED="$from/x86_64/libenvy_parted.a" INTO="$root/include"
cp c/ports/*.[ch] "$root/ports"
cp envy "$root" && cp "$from/program" "$root/program" && chmod 755 "$root/program"
cp words/table words/words.awk words/page "$root/words"
cp examples/*.trace examples/*.replies examples/to_csv.awk examples/demo.sh examples/block_trace.sh "$root/examples"
for folder in rust clients; do
    [ ! -d $folder ] || git ls-files -z $folder | xargs -0 cp --parents -t "$root"
done
pages
mkdir -p out
tar --sort=name --owner=0 --group=0 --numeric-owner --mtime="@$SOURCE_DATE_EPOCH" -C "$work" -c "envy-$version" |
    gzip -n >"out/envy-$version.tar.gz"
echo "release: out/envy-$version.tar.gz, $(stat -c %s "out/envy-$version.tar.gz") bytes"
if command -v dpkg-deb >/dev/null; then package; else echo "release: no package for Debian: dpkg-deb is not on the path" >&2; fi

#!/usr/bin/env bash
# What a user of SQLite meets over the VFS, tried with Debian's sqlite3: sizes of pages, parameters, several connections and
# processes, a full array, a failing file, several files in one transaction. A word is a folder of files, else a temporary one.
set -eu
here=$(cd "$(dirname "$0")" && pwd)
out=${OUT:-$here/../out}
work=$(mktemp -d "${1:-${TMPDIR:-/tmp}}/envy-sqlite.XXXXXX")
trap 'rm -rf "$work"' EXIT
cd "$work"
export EXTENSION=$out/envyvfs.so

fail() {
    echo "sqlite: $*" >&2
    exit 1
}

# sql URI WORDS..: what the shell prints of these, after the VFS is loaded
sql() {
    uri=$1
    shift
    { printf '.load %s\n.log stderr\n.bail on\n' "$out/envyvfs" && printf ".open '%s'\n" "$uri" && printf '%s\n' "$@"; } | sqlite3 2>&1 || true
}

# wants TEXT WORDS..: that sql prints just this
wants() {
    local wanted=$1 found
    shift
    found=$(sql "$@")
    [ "$found" = "$wanted" ] || fail "$*: wanted: $wanted, found: $found"
}

# tells PATTERN WORDS..: that sql prints a line with this
tells() {
    local pattern=$1 found
    shift
    found=$(sql "$@")
    grep -q -- "$pattern" <<<"$found" || fail "$*: no line has '$pattern': $found"
}

# each size of a page, in a process of its own, and again
for page in 512 1024 2048 4096 65536; do
    file="file:page.$page?vfs=envy&size=4M"
    wants ok "$file" "pragma page_size=$page;" "create table t(a integer primary key, b text);" \
        "with recursive n(i) as (select 1 union all select i+1 from n where i<5000) insert into t select i, hex(i) from n;" \
        "delete from t where a % 3 = 0;" "pragma integrity_check;"
    wants "$page
3334
ok" "$file" "pragma page_size;" "select count(*) from t;" "pragma integrity_check;"
done
wants "3334
ok" "file:page.512?vfs=envy&bytewise=1&journal=file" "select count(*) from t;" "vacuum;" "pragma integrity_check;"

# wrong parameters and wrong files are refused by name, and left as they are
tells "size=8Q: it is a number" "file:none?vfs=envy&size=8Q" "select 1;"
tells "size=4G: it is a number of 1 to" "file:none?vfs=envy&size=4G" "select 1;"
tells "bytewse=1: no parameter has this name" "file:none?vfs=envy&bytewse=1" "select 1;"
tells "bytewise=2: it is 0 or 1" "file:none?vfs=envy&bytewise=2" "select 1;"
tells "journal=disk: it is memory or file" "file:none?vfs=envy&journal=disk" "select 1;"
tells "unable to open" "file:none?vfs=envy&mode=rw" "select 1;"
[ ! -e none ] || fail "a refused file was made"
echo "no database" >other && cp other before
tells "file is not a database" "file:other?vfs=envy" "select 1;"
sqlite3 plain "create table t(a)"
tells "file is not a database" "file:plain?vfs=envy" "select 1;"
cmp other before && [ "$(sqlite3 plain .tables)" = t ] || fail "a refused file was changed"

# a file is made as a durable or a mapped one, and opened as that alone; over a mapped one journals are files
wants "ok" "file:mapped?vfs=envy&size=1M&mapped=1&shadows=99" "create table t(a);" "begin; insert into t values(1);" "rollback;" "insert into t values(2);" \
    ".shell [ ! -e mapped-journal ]" "pragma integrity_check;"
cp mapped before && cp page.512 durable
tells "the file is a mapped one, which mapped=1 opens" "file:mapped?vfs=envy" "select 1;"
tells "the file is a durable one, which mapped=0 opens" "file:durable?vfs=envy&mapped=1" "select 1;"
cmp mapped before && cmp page.512 durable || fail "a file that was refused as the other kind was changed"
tells "bytewise=1: a mapped file has no such parameter" "file:mapped?vfs=envy&mapped=1&bytewise=1" "select 1;"
tells "nosync=1: only a mapped file" "file:page.512?vfs=envy&nosync=1" "select 1;"
tells "journal=memory: over a mapped file it is file" "file:mapped?vfs=envy&mapped=1&journal=memory" "select 1;"
ENVYVFS="mapped=1&bytewise=1" wants 2 "file:mapped?vfs=envy" "select a from t;"

# a second process is refused while the first has the file, and has it then
{ printf '.load %s\n' "$out/envyvfs"; echo ".open 'file:page.1024?vfs=envy'"; echo "begin immediate;"; echo ".system touch open"; sleep 3; } | sqlite3 &
first=$!
for _ in $(seq 50); do [ -e open ] || sleep 0.1; done
tells "database is locked" "file:page.1024?vfs=envy" "select count(*) from t;"
wait "$first"
wants 3334 "file:page.1024?vfs=envy" "select count(*) from t;"

# what isn't committed when a process dies isn't there; what is, is
{ printf '.load %s\n' "$out/envyvfs"; echo ".open 'file:page.2048?vfs=envy'"; echo "insert into t values(9000, 'kept');"; echo "pragma cache_size=5; begin; delete from t;"; echo ".system touch deleted"; sleep 3; } | sqlite3 &
first=$!
for _ in $(seq 50); do [ -e deleted ] || sleep 0.1; done
kill -9 "$first" 2>/dev/null || true
wait "$first" 2>/dev/null || true
for _ in $(seq 50); do sql "file:page.2048?vfs=envy" "select 1;" | grep -q locked || break; sleep 0.1; done
wants "3335
ok" "file:page.2048?vfs=envy" "select count(*) from t;" "pragma integrity_check;"

# a full array is told as a full disk; the transaction isn't there, and there is room after rows are deleted
tells "database or disk is full" "file:full?vfs=envy&size=256K" "create table t(a integer primary key, b);" "insert into t values(1, zeroblob(100000));" \
    "insert into t values(2, randomblob(200000));"
wants "1
ok
2" "file:full?vfs=envy" "select count(*) from t;" "pragma integrity_check;" "delete from t;" "insert into t values(2, randomblob(200000));" "select a from t;"

# a file that fails is told as such, by that call and all later ones; the next process finds the last commit
sql "file:failing?vfs=envy&size=1M" "create table t(a);" "insert into t values(1);" >/dev/null
for at in 2 4 5 6 7 8 9; do
    found=$(SHIM_FAIL=$at LD_PRELOAD=$out/tests/shim.so sqlite3 2>&1 <<WORDS || true
.load $out/envyvfs
.open 'file:failing?vfs=envy'
insert into t values($at);
insert into t values($at);
WORDS
    )
    grep -Eq "disk I/O error|unable to open" <<<"$found" || fail "no error at the call $at: $found"
    tells "^ok$" "file:failing?vfs=envy" "pragma integrity_check;"
    tells "^1$" "file:failing?vfs=envy" "select a from t where a=1;"
done

# connections of one process share the array: a reader beside a writer, a refused second writer, and threads
both=("create table t(a); insert into t values(1),(2),(3);" "begin immediate; insert into t values(4);"
    "attach 'file:shared?vfs=envy' as again;" "select 'sees', count(*) from again.t;")
tells "^sees|3$" "file:shared?vfs=envy&size=1M" "${both[@]}"
rm shared
tells "database is locked" "file:shared?vfs=envy&size=1M" "${both[@]}" "insert into again.t values(5);"
"$out/tests/threads" "file:threads?vfs=envy&size=1M"

# two files in one transaction, also with journals in files
for journal in memory file; do
    wants "1|2
2|1" "file:one.$journal?vfs=envy&size=1M&journal=$journal" "attach 'file:two.$journal?vfs=envy&size=1M&journal=$journal' as two;" \
        "create table main.t(a); create table two.t(a);" "begin; insert into main.t values(1); insert into two.t values(2); commit;" \
        "begin; insert into main.t values(3); insert into two.t values(3); rollback;" \
        "select (select a from main.t), (select a from two.t);" "select (select a from two.t), count(*) from main.t;"
done
[ ! -e one.file-journal ] || fail "a journal was left"

# a backup into it and out of it, and a compaction
sqlite3 from "create table t(a); with recursive n(i) as (select 1 union all select i+1 from n where i<9999) insert into t select i from n"
sql "file:backup?vfs=envy&size=2M" ".restore from" >/dev/null
wants "done
9999
ok" "file:backup?vfs=envy" "pragma envy_compact;" "select count(*) from t;" "pragma integrity_check;"
sql "file:backup?vfs=envy" ".backup to" >/dev/null
[ "$(sqlite3 to "select sum(a) from t")" = 49995000 ] || fail "a backup out of it differs"
echo "sqlite: pages, parameters, processes, a full array, a failing file and several files are as they should be"

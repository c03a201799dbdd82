#!/usr/bin/env bash
# A trace of a disk's blocks as a trace of words. KIND is
#
#   msr        of the MSR Cambridge traces: Timestamp,Host,Disk,Type,Offset,Size,Time (100 ns; bytes)
#   spc        of the Storage Performance Council, as at UMass: ASU,LBA,Size,Opcode,Timestamp (512 bytes; bytes; seconds)
#   blkparse   as blkparse prints it: the lines of action Q (seconds; sectors of 512 bytes)
#   fio        an iolog of fio, version 2 or 3: FILE read|write OFFSET LENGTH, after a time in version 3 (us; bytes)
#
#   examples/block_trace.sh KIND [--unit 256|4096] [--words] [--ticks US] < TRACE > WORDS
#   examples/block_trace.sh --sample KIND           writes a small trace of that kind, drawn here
#
# Each unit of the disk that a request touches, 256 bytes or 4 KiB (256), becomes one page of the array: one load or store,
# of the page's first word; with --words each of its 32 words. Pages are numbered as they are met, and how many there are
# is reported on standard error. With --ticks each US microseconds between two requests are a line `tick`, 64 at most.
set -eu
export LC_ALL=C
most_ticks=64
usage() { sed -n '2,15s/^# \{0,1\}//p' "$0" >&2; exit 2; }
is_kind() { case ${1-} in msr | spc | blkparse | fio) ;; *) return 1 ;; esac; }

# 200 requests to 40 blocks of 4 KiB, of which a few get the most; all kinds tell the same ones
sample() {
    awk -v kind="$1" '
        function drawn(most) { seed = seed * 16807 % 2147483647; return int(seed / 2147483647 * most) }
        BEGIN {
            seed = 11
            if (kind == "fio") print "fio version 3 iolog\n0 /dev/sda add\n0 /dev/sda open"
            for (i = 1; i <= 200; i++) {
                block = drawn(10) < 8 ? drawn(8) : drawn(40)
                type = drawn(3) ? "W" : "R"
                blocks = 1 + drawn(2)
                if (kind == "msr")
                    printf "%.0f,src1,0,%s,%.0f,%d,%d\n", 128166372000000000 + i * 10000, type == "W" ? "Write" : "Read",
                        block * 4096, blocks * 4096, 100
                else if (kind == "spc") printf "0,%d,%d,%s,%.6f\n", block * 8, blocks * 4096, type, i / 1000
                else if (kind == "blkparse")
                    printf "  8,0    1 %8d %14.9f  697  Q  %s %d + %d [fs]\n", i, i / 1000, type, block * 8, blocks * 8
                else printf "%d /dev/sda %s %d %d\n", i * 1000, type == "W" ? "write" : "read", block * 4096, blocks * 4096
            }
        }'
}

[ $# -ge 1 ] || usage
if [ "$1" = --sample ]; then
    is_kind "${2-}" || usage
    sample "$2"
    exit
fi
kind=$1 words=1 unit=256 ticks=0
is_kind "$kind" || usage
shift
while [ $# -gt 0 ]; do
    case $1 in
    --words) words=32 && shift ;;
    --unit) case ${2-} in 256 | 4096) unit=$2 ;; *) usage ;; esac; shift 2 ;;
    --ticks) case ${2-} in '' | *[!0-9]* | 0) usage ;; *) ticks=$2 ;; esac; shift 2 ;;
    *) usage ;;
    esac
done
awk -v kind="$kind" -v words=$words -v unit="$unit" -v ticks="$ticks" -v most=$most_ticks '
    BEGIN { FS = kind == "msr" || kind == "spc" ? "," : " " }
    # microseconds pass
    function passes(time,    i) { if (ticks) for (i = 1; i <= int(time / ticks) && i <= most; i++) print "tick" }
    function at(time) { if (requests) passes(time - last); last = time }
    function request(type, time, first, bytes,    page, w, end, key) {
        at(time)
        requests++
        if (bytes <= 0) return
        end = int((first + bytes - 1) / unit)
        for (page = int(first / unit); page <= end; page++) {
            key = sprintf("%.0f", page)
            if (!(key in number)) number[key] = met++
            for (w = 0; w < words; w++) {
                if (type == "R") printf "load %.0f\n", 32 * number[key] + w
                else printf "store %.0f %.0f\n", 32 * number[key] + w, ++stored
            }
        }
    }
    function other() {
        printf "block_trace: line %d is not of the kind %s: %s\n", NR, kind, substr($0, 1, 60) > "/dev/stderr"
        failed = 1
        exit 1
    }
    { sub(/\r$/, "") }
    /^[ \t]*$/ { next }
    { lines++ }
    kind == "msr" { if (NF == 7 && ($4 == "Read" || $4 == "Write")) request(substr($4, 1, 1), $1 / 10, $5, $6); else other() }
    kind == "spc" { if (NF >= 5 && $4 ~ /^[RrWw]$/) request(toupper($4), $5 * 1000000, $2 * 512, $3); else other() }
    kind == "blkparse" && $6 == "Q" && $7 ~ /[RW]/ && $7 !~ /D/ && $9 == "+" {
        request($7 ~ /R/ ? "R" : "W", $4 * 1000000, $8 * 512, $10 * 512)
    }
    # version 2 has no times, but lines that wait so many microseconds
    kind == "fio" && $1 == "fio" && $2 == "version" { version = $3; next }
    kind == "fio" && version == 2 && NF >= 3 && $2 == "wait" { passes($3) }
    kind == "fio" && version == 2 && NF == 4 && $2 ~ /^(read|write)$/ { request(toupper(substr($2, 1, 1)), last, $3, $4) }
    kind == "fio" && version == 3 && NF == 5 && $3 ~ /^(read|write)$/ { request(toupper(substr($3, 1, 1)), $1, $4, $5) }
    END {
        if (failed) exit 1
        if (lines && !requests) {
            printf "block_trace: no line is a request of the kind %s\n", kind > "/dev/stderr"
            exit 1
        }
        printf "block_trace: %d page%s\n", met, met == 1 ? "" : "s" > "/dev/stderr"
    }'

#!/usr/bin/env bash
# Writes the description of the calls, rust/calls/calls.txt, to its output:
#
#   make/calls.sh header        as a header of C and C++, for programs that go through all calls
#   make/calls.sh names         the calls' names, without lomvuze_
#   make/calls.sh prototypes    what C must declare: of each call a line for what it returns, and one for each parameter
#   make/calls.sh checks        of each call its name and the checks that it runs
#   make/calls.sh buffers       of each buffer the call, `reads` or `writes`, its name and what it holds
#
# LOMVUZE_CALLS names another file. Needs awk alone. Exit status: 0, 1 where the description is malformed, 2 for a word that is none of these.
set -euo pipefail
folder=$(cd "$(dirname "$0")" && pwd)
description=${LOMVUZE_CALLS:-$folder/../rust/calls/calls.txt}
case "${1:-}" in
    header) awk -f "$folder/calls.awk" -f "$folder/calls-header.awk" "$description" ;;
    names | prototypes | checks | buffers) awk -v which="$1" -f "$folder/calls.awk" -f "$folder/calls-lists.awk" "$description" ;;
    --help) sed -n '2,/^set/{/^#/s/^# \{0,1\}//p}' "$0" ;;
    *)
        echo 'usage: make/calls.sh header|names|prototypes|checks|buffers (--help says more)' >&2
        exit 2
        ;;
esac

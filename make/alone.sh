#!/usr/bin/env bash
# Runs a command that runs rt in this checkout, while no other one does: two at once would share processors and memory, wait for each other at each crate,
# and write the same files of target/. Where another command is under way, says so and waits for its end.
#
#   make/alone.sh COMMAND...
#
# The lock is on the checkout's folder. It lasts until the last process of the command has ended. Needs flock (util-linux).
# Exit status: that of the command, or 2 where there is no flock, or where the command calls this script again, which would wait for itself.
set -euo pipefail
folder=$(cd "$(dirname "$0")/.." && pwd -P)
if ! command -v flock >/dev/null; then
    echo 'flock, which keeps two runs of rt apart, is missing: there is none on PATH (Debian: util-linux).' >&2
    exit 2
fi
if [ "${LOMVUZE_ALONE:-}" = "$folder" ]; then
    echo "make/alone.sh is called by a command that it runs: $*" >&2
    exit 2
fi
export LOMVUZE_ALONE=$folder
exec 9<"$folder"
if ! flock --nonblock 9; then
    echo "waiting for another run of rt in $folder" >&2
    flock 9
fi
exec "$@"

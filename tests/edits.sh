#!/usr/bin/env bash
# Each edit of crates/*/must-fail fits: a text that it replaces stands once in its file. It takes a second, where `rt ci` counts an edit that does not fit
# as bad after minutes. Run from anywhere.
set -euo pipefail
. "$(dirname "$0")/common.sh"
failed=0 edits=0
for edit in crates/*/must-fail/*.edit; do
    crate=${edit%/must-fail/*}
    edits=$((edits + 1)) lines=0 file=
    while IFS= read -r line; do
        case $line in
        'file: '*) file=$crate/${line#file: } ;;
        'old: '*)
            lines=$((lines + 1))
            found=$(grep -oF -- "${line#old: }" "$file" | wc -l || true)
            [ "$found" = 1 ] || { echo "FAILED: $edit: found $found times in $file: ${line#old: }"; failed=1; }
            ;;
        esac
    done <"$edit"
    [ "$lines" -gt 0 ] || { echo "FAILED: $edit replaces nothing"; failed=1; }
done
[ "$failed" = 0 ] || exit 1
echo "edits: $edits fit their files"

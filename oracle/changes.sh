#!/bin/sh
# changes.sh FOLDER: writes changes.diff anew: what was changed in the text of wasmtimer 0.4.3. FOLDER is the published crate, with
# its src/.
set -u
original=$(cd "${1:?the folder of the published crate}" && pwd) || exit 2
cd "$(dirname "$0")" || exit 2
for file in $(cd "$original/src" && find . -name '*.rs' | sed 's,^\./,,' | LC_ALL=C sort); do
    [ -f "src/wasmtimer/$file" ] || continue
    diff -u --label "a/src/$file" --label "b/src/$file" "$original/src/$file" "src/wasmtimer/$file"
    [ $? -lt 2 ] || exit 2
done >changes.diff

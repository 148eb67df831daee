#!/bin/sh
# Removes the files that install.sh has copied, and the folders that are empty then.
set -eu
cd "$(dirname "$0")/../.."
files=$(cat share/urlpattern/FILES)
for file in $files; do
    rm -f "$file"
    folder=$(dirname "$file")
    while [ "$folder" != . ] && rmdir "$folder" 2>/dev/null; do
        folder=$(dirname "$folder")
    done
done

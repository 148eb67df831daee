#!/bin/sh
# Copies the program, its manual, the header and the library below a folder.
#
# usage: install.sh PREFIX     such as /usr/local, or $HOME/.local
set -eu
if [ $# -ne 1 ] || [ "${1#-}" != "$1" ]; then
    echo "usage: install.sh PREFIX" >&2
    exit 2
fi
from=$(cd "$(dirname "$0")" && pwd)
while IFS= read -r file; do
    mkdir -p "$1/$(dirname "$file")"
    cp "$from/$file" "$1/$file"
done <"$from/share/urlpattern/FILES"
echo "The program is $1/bin/urlpat. $1/share/urlpattern/uninstall.sh removes all that was copied."

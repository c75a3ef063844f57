#!/usr/bin/env bash
# Turns a checkout that was written for the older Rattle to the spelling of rattle-kit-13f: the kit's own port.py, and then
# tools/respell.py for the names that port.py leaves. Run once, at the top of a checkout with everything committed.
#
# port.py is run from a copy, since it takes a folder named `target` for what Cargo builds and passes it by; here that is
# the name of a crate. The copy differs in that alone.
set -e
kit=$(dirname "$(readlink -f "$(rt doc)")")
here=$(cd "$(dirname "$0")" && pwd)
copy=$(mktemp -d)
trap 'rm -rf "$copy"' EXIT
cp -r "$kit/port" "$copy/port"
for part in rattle bin; do ln -s "$kit/$part" "$copy/$part"; done
grep -rl '"target"' --include=*.py "$copy/port/notes" | xargs sed -i 's/"target"/"built-by-cargo"/g'
python3 "$copy/port/port.py"
[ ! -e "$here/respell.py" ] || python3 "$here/respell.py"

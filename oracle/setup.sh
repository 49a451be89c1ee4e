#!/bin/sh
# Copies the seven published files, unchanged, into crates/mod/src, beside the three stand-in
# modules. They are looked for in $ORACLE_SRC (a folder that holds engine.rs, or crates/mod/src/engine.rs),
# otherwise in ../shared/docs/src beside the repository. Exit 2 where they are not at hand.
set -eu
here=$(cd "$(dirname "$0")" && pwd)
from=${ORACLE_SRC:-$here/../../shared/docs/src}
[ -f "$from/engine.rs" ] || from=$from/crates/mod/src
[ -f "$from/engine.rs" ] || { echo "oracle: the published files are not at hand (set ORACLE_SRC, see README.md)" >&2; exit 2; }
dst=$here/crates/mod/src
mkdir -p "$dst"
put() { cmp -s "$1" "$2" || { rm -f "$2"; cp "$1" "$2"; }; cmp "$1" "$2"; }
for f in lib curve dest source matrix program engine; do put "$from/$f.rs" "$dst/$f.rs"; done
for f in commands mailbox telemetry; do put "$here/crates/mod/stubs/$f.rs" "$dst/$f.rs"; done
echo "oracle: the published files are in place, unchanged"

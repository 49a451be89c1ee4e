#!/bin/sh
# Puts the published files in place and builds target/release/{oracle,vectors,bench} and target/model.
set -eu
here=$(cd "$(dirname "$0")" && pwd)
"$here/setup.sh"
cd "$here"
cargo build --release --offline --jobs 1 "$@"
[ target/model -nt model/model.rs ] || rustc -O -A warnings -o target/model model/model.rs

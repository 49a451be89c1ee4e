#!/usr/bin/env bash
# trytrace REPO NAME OUT: an unproved binary
set -euo pipefail
repo=$(cd "$1" && pwd); name=$2; out=$3
kit=$(dirname "$(dirname "$(readlink -f "$(command -v rt)")")"); own=$kit/on/$(uname -m)
q=$out; mkdir -p "$q/bin" "$q/log"; rm -f "$q"/log/*
ln -sfn "$kit/toolchain/lib" "$q/lib"; 
cat > "$q/bin/ld.lld" <<L
#!/bin/bash
n=$q/log/ld.\$\$
printf '%s\n' "\$@" > \$n.args
$own/toolchain/bin/ld.lld "\$@"; r=\$?
o=; while [ \$# -gt 0 ]; do [ "\$1" = -o ] && o=\$2; shift; done
[ -n "\$o" ] && cp "\$o" \$n.out
exit \$r
L
ln -sfn "$own/toolchain/bin/llvm-ar" "$q/bin/llvm-ar"
cat > "$q/bin/clang" <<CLANG
#!/bin/bash
n=$q/log/\$\$
printf '%s\n' "\$@" > \$n.args
$own/toolchain/bin/clang "\$@"; r=\$?
o=; while [ \$# -gt 0 ]; do [ "\$1" = -o ] && o=\$2; shift; done
[ -n "\$o" ] && cp "\$o" \$n.out
exit \$r
CLANG
chmod +x "$q/bin/clang" "$q/bin/ld.lld"
deps_of() { sed -n "s/^$1: *//p" "$repo/crates.txt" | sed 's/#.*//'; }
reached=''; todo=$(deps_of $name)
while [ -n "$(echo $todo)" ]; do
  next=''
  for d in $todo; do case " $reached " in *" $d "*) continue ;; esac; reached="$reached $d"; next="$next $(deps_of "$d")"; done
  todo=$next
done
words=(--toolchain "$q" "$repo/crates/$name/src/main.rt" --crate-name $name --lib "std=$kit/libs/std/src/lib.rt")
for d in $reached; do if [ -d "$repo/crates/$d" ]; then words+=(--lib "$d=$repo/crates/$d/src/lib.rt"); else words+=(--lib "$d=$([ $d = io ] && echo /tmp/run/iocopy/src/lib.rt || echo $kit/libs/$d/src/lib.rt)"); fi; done
"$own/bin/rattle-cases" "${words[@]}" < /dev/null > "$q/try.log" 2>&1 || { tail -n 40 "$q/try.log"; exit 1; }

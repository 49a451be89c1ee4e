mkdir -p /tmp/tc
for t in clang ld.lld; do
cat > /tmp/tc/$t <<S
#!/bin/bash
prev=
/opt/rattle/on/x86_64/toolchain/bin/$t "\$@"; r=\$?
for a in "\$@"; do if [ "\$prev" = -o ]; then case "\$a" in *.o|*.a) ;; *) [ -x "\$a" ] && cp "\$a" /tmp/tc/out-\$(ls /tmp/tc | grep -c out-);; esac; fi; prev="\$a"; done
exit \$r
S
chmod +x /tmp/tc/$t; done

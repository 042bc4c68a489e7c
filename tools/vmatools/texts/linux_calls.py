"""Calls of Linux about memory that no trace has."""

# Those that leave the areas as they are.
ADVICE = set(
    """
    cachestat get_mempolicy madvise mbind membarrier migrate_pages mincore mlock mlock2 mlockall move_pages msync munlock
    munlockall pkey_alloc pkey_free process_madvise process_mrelease set_mempolicy set_mempolicy_home_node
    """.split()
)
# Those that change the list, or what is in it.
CHANGES = {"io_destroy", "io_setup", "map_shadow_stack", "remap_file_pages", "shmat", "shmdt", "userfaultfd"}
# Those that may begin another list, or move its borders.
BEGINNINGS = {"execve", "execveat", "prctl", "uselib"}

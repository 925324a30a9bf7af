// Loaded before a program (LD_PRELOAD): no sync of a file is waited for, so that the cost of syncs can be seen.
extern "C" int fdatasync(int) { return 0; }

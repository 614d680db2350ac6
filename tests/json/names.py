"""The calls that the test's table has, with their numbers on x86_64; the last two are there for their length and their number."""
import struct

NUMBERS = {
    "accept": 43, "access": 21, "bind": 49, "bpf": 321, "brk": 12, "clock_gettime": 228, "clone": 56, "clone3": 435, "close": 3,
    "close_range": 436, "connect": 42, "dup": 32, "epoll_create1": 291, "epoll_wait": 232, "execve": 59, "exit": 60,
    "exit_group": 231, "fcntl": 72, "fork": 57, "fstat": 5, "futex": 202, "getpid": 39, "getrandom": 318, "io_uring_setup": 425,
    "ioctl": 16, "kill": 62, "lseek": 8, "madvise": 28, "mmap": 9, "mprotect": 10, "munmap": 11, "open": 2, "openat": 257, "openat2": 437,
    "pipe2": 293, "poll": 7, "prctl": 157, "ptrace": 101, "read": 0, "readv": 19, "recvmsg": 47, "rt_sigreturn": 15,
    "sched_setaffinity": 203, "sendmsg": 46, "socket": 41, "stat": 4, "tkill": 200, "unshare": 272, "write": 1, "writev": 20,
    "sched_rr_get_interval_time64": 423, "last": 2 ** 32 - 1,
}
KNOWN = {name.encode(): number for name, number in NUMBERS.items()}


def table():
    """The table as it is lent: slots of 32 bytes, the names ascending."""
    return b"".join(name.ljust(28, b"\0") + struct.pack("<I", number) for name, number in sorted(KNOWN.items()))

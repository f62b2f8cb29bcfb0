"""What each call that fails is to be answered with, from docs/FORMATS.md ("Exit statuses"), docs/OPERATING.md and
docs/GUARANTEES.md.

    whole     status 0, and nobody has noticed: each client got all, and the books or totals are those of all
    link      status 0; at most as many clients were cut off as calls failed, and their links end with a fault or
              are not there; all others got all
    4 5 6 7   this status with its line; of 5 a first part of the text stands before it, of 6 of `keep` its lines and
              totals where it had served
    loader    the call was the system's loader's, before the program began, which is not looked at

    fewer     status 0; no thread could be started for some workers, so clients waited for the others

A rule is a call, the faults that it is made to have, a pattern of the call as strace prints it, and the answers; the
first one that fits counts. A rule that is for one command names it. Behind the name of a call stands of which file it
is, where it is of one alone: the configuration, or standard input; or `late`, where strace comes to a program that
serves already, so that the first call of each worker can fail and none of the start.
"""
import re

FAULTS_OF_A_LINK = ['ECONNRESET', 'ETIMEDOUT', 'EIO']

RULES = [
    ('openat config', ['EACCES', 'EMFILE', 'ENOENT'], '', ['4']),
    ('openat config', ['EINTR'], '', ['whole']),
    ('read config', ['EIO'], '', ['4']),
    ('read config', ['EINTR'], '', ['whole']),
    # Standard input: what could not be read is read at the next look.
    ('read input', ['EIO', 'EAGAIN', 'EINTR'], '', {'keep': ['whole']}),
    ('poll input', ['EINTR', 'ENOMEM'], '', {'keep': ['whole']}),
    ('ioctl input', ['EIO'], '', {'keep': ['whole']}),
    # The listener: it could not be listened at ADDR.
    ('socket', ['EMFILE', 'EACCES'], 'SOCK_NONBLOCK', {'keep': ['whole'], 'serve': ['6']}),
    ('socket', ['EMFILE', 'EACCES'], '', {'serve': ['6'], 'keep': ['6'], 'record': ['6']}),
    ('bind', ['EADDRINUSE', 'EACCES'], '', ['6']),
    ('listen', ['EADDRINUSE'], '', ['6']),
    ('setsockopt', ['ENOPROTOOPT', 'ENOBUFS'], 'SO_REUSEADDR|SO_RCVTIMEO', ['whole', '6']),
    # One of them can be the relay's, whose caster `serve` then did not reach, or the listener's.
    ('setsockopt', ['ENOPROTOOPT', 'ENOBUFS'], 'TCP_NODELAY', {
        'keep': ['whole', 'link'], 'serve': ['whole', 'link', '6'], 'record': ['whole', 'link']}),
    ('setsockopt', ['ENOPROTOOPT', 'ENOBUFS'], '', ['whole', 'link']),
    # A connection waits at the listener until there is room for it; what is no listener any more is a network fault.
    ('accept4', ['EMFILE', 'ENFILE', 'ENOMEM', 'ENOBUFS', 'ECONNABORTED', 'EINTR', 'EAGAIN', 'EPERM'], '', ['whole']),
    ('accept4', ['EBADF', 'EINVAL'], '', ['6']),
    ('setsockopt late', ['ENOPROTOOPT', 'ENOBUFS'], '', ['whole', 'link']),
    ('ioctl late', ['EIO'], 'TIOC', ['whole']),
    ('ioctl late', ['EIO'], '', ['whole', 'link']),
    ('close late', ['EIO'], '', ['whole']),
    ('ioctl', ['ENOTTY', 'EIO'], 'TIOC', ['whole']),
    ('ioctl', ['ENOTTY', 'EIO'], 'FIONBIO', {
        'keep': ['whole', 'link'], 'serve': ['whole', 'link', '6'], 'record': ['whole', 'link', '6']}),
    # The bells, and the waits: a rest changes nothing, and a frame comes later.
    ('socketpair', ['EMFILE', 'ENFILE'], '', ['whole']),
    ('epoll_create1', ['EMFILE', 'ENOMEM'], '', ['whole']),
    ('epoll_ctl', ['ENOMEM', 'ENOSPC'], '', ['whole']),
    ('epoll_wait', ['EINTR', 'EINVAL'], '', ['whole']),
    ('clock_nanosleep', ['EINTR'], '', ['whole']),
    # The system never fails a FUTEX_WAKE so; runs in which one was failed are left out.
    ('futex', ['EINTR', 'EAGAIN'], 'FUTEX_WAIT', ['whole']),
    # Links. A look at the room of a socket that fails finds none, and is made again.
    ('poll', ['EINTR', 'ENOMEM'], '', ['whole']),
    ('recvfrom', ['EINTR', 'EAGAIN'], '', ['whole']),
    ('recvfrom', FAULTS_OF_A_LINK, '', ['link']),
    ('sendto', ['EINTR', 'EAGAIN'], '', ['whole']),
    ('sendto', ['EPIPE', 'EIO'], '"\\\\1", 1,', ['whole']),
    ('sendto', ['EPIPE', 'EIO'], '', ['link']),
    ('shutdown', ['ENOTCONN'], '', ['whole']),
    ('close', ['EIO', 'EINTR'], '', ['whole']),
    # A relay: `keep` dials again, `serve` cannot reach it.
    ('connect', ['ECONNREFUSED', 'ETIMEDOUT', 'ENETUNREACH', 'EACCES'], '', {'keep': ['whole'], 'serve': ['6']}),
    ('getsockopt', ['ENOBUFS'], '', {'keep': ['whole'], 'serve': ['6', 'whole']}),
    ('getpeername', ['ENOTCONN'], '', {'keep': ['whole'], 'serve': ['6', 'whole']}),
    # What is written: the lines of keep, the totals, the script.
    ('write', ['ENOSPC', 'EIO', 'EPIPE'], '', ['5']),
    ('write', ['EINTR'], '', ['whole']),
    # No memory, no thread: a worker fewer, or the line `memory`.
    ('clone3', ['EAGAIN', 'ENOMEM'], '', ['whole', 'fewer']),
    # Two are not among them, which the C library makes and answers by itself. The system answers a `brk` with the
    # old end of the heap, which strace cannot; and where the stack of a thread that has ended cannot be given back
    # (`munmap`), the C library aborts the program.
    ('mmap', ['ENOMEM'], '', ['whole', 'fewer', 'link', '7']),
    ('mprotect', ['ENOMEM'], '', ['whole', 'fewer', 'link', '7']),
    ('madvise', ['EINVAL'], '', ['whole']),
]

# Up to which of its times a call fails; the loader makes the first of some calls.
MOST = {'mmap': 26, 'close': 12, 'recvfrom': 7, 'sendto': 7, 'write': 10, 'setsockopt': 16}


def calls():
    """Each call with each of its faults, once."""
    pairs = []
    for call, faults, _, _ in RULES:
        pairs += [(call, fault) for fault in faults if (call, fault) not in pairs]
    return pairs


def times(call):
    return range(1, MOST.get(call, 5) + 1)


def wanted(command, call, fault, failed):
    """The answers that may come where these calls failed; none where the documents say nothing of them."""
    answers = None
    for line in failed:
        found = answer_of(command, call, fault, line)
        if found is None:
            return None
        answers = found if answers is None or 'link' in found else answers
    return answers


def answer_of(command, call, fault, line):
    for name, faults, pattern, answers in RULES:
        if name == call and fault in faults and re.search(pattern, line):
            return answers.get(command) if isinstance(answers, dict) else answers
    return None

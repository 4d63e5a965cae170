"""Runs the program: as the user's own run, or to ask it something."""
import os

try:
    # the same calls without the names of all signals, which take longer to make than all else that a run needs
    import _signal as signal
except ImportError:
    import signal

PASSED_ON = (signal.SIGINT, signal.SIGTERM, signal.SIGHUP, signal.SIGQUIT)
# `replay` and `serve` read no longer script than this
LONGEST_SCRIPT = 16 << 20
WRITE_FAULT = 6


def environment():
    """The program's variables. Large pieces of memory come in huge pages if the system gives them; lib/memory.sh says more."""
    return {"GLIBC_TUNABLES": "glibc.malloc.hugetlb=1", **os.environ}


def started(program, words, descriptors=()):
    """Starts the program; `descriptors` has pairs of a descriptor of its own and one of ours. A file's limit is a fault for it, and no signal."""
    actions = [(os.POSIX_SPAWN_DUP2, ours, its) for its, ours in descriptors]
    return os.posix_spawn(program, [program, *words], environment(), file_actions=actions, setsigdef=[signal.SIGPIPE])


def status_of(child):
    """Waits for a process; one that a signal ended has 128 and the signal's number as its status, as in a shell."""
    code = os.waitstatus_to_exitcode(os.waitpid(child, 0)[1])
    return code if code >= 0 else 128 - code


def passed_on(reader, hear):
    """Whether all that comes from a pipe went on to standard output; `hear` gets each piece, too."""
    with open(reader, "rb") as file:
        while piece := file.read1(1 << 16):
            if hear:
                hear(piece)
            try:
                while piece:
                    piece = piece[os.write(1, piece) :]
            except OSError:
                return False
    return True


def run(program, words, script=None, hear=None):
    """The status of a run of the program with nvd's own streams; signals to nvd are passed on to it. `hear` gets its text, piece by piece."""
    watch = None
    if os.isatty(2):
        from watched import watcher

        watch = watcher(words)
    descriptors = [(0, script)] if script is not None else []
    takes_text = bool(hear or watch and watch.takes_text)
    if takes_text:
        reader, writer = os.pipe()
        descriptors.append((1, writer))
    child = started(program, words, descriptors)
    if takes_text:
        os.close(writer)
    before = {it: signal.signal(it, lambda number, _: os.kill(child, number)) for it in PASSED_ON if signal.getsignal(it) is not signal.SIG_IGN}
    try:
        if watch:
            watch.until_end(child, reader if takes_text else None)
        is_whole = not takes_text or passed_on(reader, hear)
        status = status_of(child)
        return status if is_whole else WRITE_FAULT
    finally:
        for number, handler in before.items():
            signal.signal(number, handler)


def asked(program, words, script=None):
    """The status and the text of a run of the program that only asks; it reads no script if none is given."""
    nothing = os.open(os.devnull, os.O_RDWR)
    reader, writer = os.pipe()
    child = started(program, words, [(0, nothing if script is None else script), (1, writer), (2, nothing)])
    os.close(writer)
    os.close(nothing)
    pieces = []
    try:
        with open(reader, "rb") as file:
            pieces = file.read()
    except BaseException:
        os.kill(child, signal.SIGKILL)
        raise
    finally:
        status = status_of(child)
    return status, pieces.decode(errors="surrogateescape")


def fault_of_input():
    """Why standard input can't be read; None if it can."""
    try:
        os.fstat(0)
        import fcntl

        if fcntl.fcntl(0, fcntl.F_GETFL) & os.O_ACCMODE == os.O_WRONLY:
            return "is open for writing only"
    except OSError:
        # Python doesn't start on a directory, so nvd's first lines close it, and leave word
        return f"is {os.environ.get('NVD_INPUT') or 'closed'}"
    return None


def kept_script():
    """A descriptor of the script on standard input that can be read again, and the place where it begins; None if there is no such script."""
    try:
        return 0, os.lseek(0, 0, os.SEEK_CUR)
    except OSError:
        if fault_of_input():
            return None
    copy = os.memfd_create("script")
    size = 0
    while size <= LONGEST_SCRIPT:
        try:
            piece = os.read(0, 1 << 16)
        except OSError:
            os.close(copy)
            return None
        if not piece:
            break
        os.write(copy, piece)
        size += len(piece)
    os.lseek(copy, 0, os.SEEK_SET)
    return copy, 0

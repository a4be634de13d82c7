"""Names what C has and the machine hasn't, where it stands in a program, and says what to do instead.

The compiler tells of a float or a number of 64 bits by the instruction that it needs, or, where a name isn't known, by a syntax error.
So a preprocessed text is looked through before, and a header or a function that isn't in the library is answered with what there is.
"""

import re

from compiler_text import Refused
from formats import CHARACTER, MARK

NO_FLOATS = "the machine has no floats"
NO_64_BITS = "the machine has no numbers of 64 bits"
IN_WHOLE = "count in whole numbers, as cents, or thousandths, in a long"
# what is looked for, what the machine hasn't, and what to do; the first group is the construct
KNOWN = [
    (r"\b(float|double|_Complex)\b", NO_FLOATS, IN_WHOLE),
    (r"(?<![\w.])((?:\d+\.\d*|\.\d+)(?:[eE][-+]?\d+)?[fFlL]?|\d+[eE][-+]?\d+[fFlL]?)(?![\w.])", NO_FLOATS, IN_WHOLE),
    (r"\b(long\s+long|long\s+(?:unsigned|signed|int)\s+long)\b", NO_64_BITS, "take `long`, which has 32, or two of them"),
    (r"\b(u?int(?:_least|_fast)?64_t|u?intmax_t)\b", NO_64_BITS, "take `int32_t` or `uint32_t`, or two of them"),
    (r"(?<![\w.])((?:0[xX][\da-fA-F]+|\d+)(?:[uU](?:ll|LL)|(?:ll|LL)[uU]?))\b", NO_64_BITS, "leave its LL out, where 32 bits hold it"),
]
# a text or a character, in which nothing is looked for, or one of these
ANY = re.compile(r'"(?:[^"\\\n]|\\.)*"|' + CHARACTER + "|" + "|".join(f"(?:{form})" for form, _, _ in KNOWN))

NO_INPUT = "a program reads nothing: its input stands in it, as an array or a text"
NO_FILES = "there are no files but the standard output, 1 and 2: keep in memory what a file would have"
NO_SIGNALS = "no signal can be sent or caught: a child tells its parent by the code of its exit"
NO_THREADS = "there are no threads: fork, and wait for the children; each has memory of its own"
NO_CLOCK = "there is no clock: `clock` of time.h counts instructions"
NO_SHARING = "no memory is shared but that which a vfork lends: a child tells its parent by the code of its exit"
# of headers and functions that there are not what to do
HEADERS = {
    **dict.fromkeys(("math.h", "float.h", "complex.h", "tgmath.h", "fenv.h"), f"{NO_FLOATS}: {IN_WHOLE}"),
    **dict.fromkeys(("fcntl.h", "sys/stat.h", "dirent.h", "sys/ioctl.h", "poll.h", "sys/select.h"), NO_FILES),
    **dict.fromkeys(("signal.h", "setjmp.h"), NO_SIGNALS),
    **dict.fromkeys(("pthread.h", "threads.h", "semaphore.h", "stdatomic.h", "sched.h"), NO_THREADS),
    **dict.fromkeys(("sys/mman.h", "sys/shm.h", "sys/ipc.h", "sys/sem.h", "sys/msg.h"), NO_SHARING),
    **dict.fromkeys(("sys/time.h", "sys/times.h", "sys/resource.h"), NO_CLOCK),
    **dict.fromkeys(("sys/socket.h", "netinet/in.h", "arpa/inet.h", "netdb.h"), "there is no network"),
}
FUNCTIONS = {
    **dict.fromkeys(("getchar", "getc", "fgetc", "gets", "fgets", "scanf", "fscanf", "getline", "read", "ungetc", "stdin"), NO_INPUT),
    **dict.fromkeys(("open", "creat", "close", "fopen", "fclose", "fread", "fwrite", "fseek", "ftell", "lseek", "remove", "rename", "unlink", "stat", "dup", "dup2", "pipe", "popen"), NO_FILES),
    **dict.fromkeys(("signal", "sigaction", "kill", "raise", "alarm", "pause", "setjmp", "longjmp", "sigprocmask"), NO_SIGNALS),
    **dict.fromkeys(("pthread_create", "pthread_join", "pthread_mutex_lock", "pthread_mutex_unlock", "sem_init", "sem_wait", "sem_post"), NO_THREADS),
    **dict.fromkeys(("sleep", "usleep", "nanosleep", "gettimeofday", "clock_gettime", "difftime", "localtime", "gmtime", "ctime", "asctime", "strftime", "mktime"), NO_CLOCK),
    **dict.fromkeys(("mmap", "munmap", "shmget", "shmat"), NO_SHARING),
    **dict.fromkeys(("sqrt", "pow", "sin", "cos", "tan", "exp", "log", "log2", "log10", "floor", "ceil", "fabs", "fmod", "round", "atof", "strtod"), f"{NO_FLOATS}: {IN_WHOLE}"),
    **dict.fromkeys(("atoll", "strtoll", "strtoull", "llabs", "lldiv"), f"{NO_64_BITS}: take `strtol`, `strtoul`, `labs` or `ldiv`"),
    "getppid": "keep what `getpid` answers before the fork",
    "system": "fork, `execve` in the child, and wait for it",
    "alloca": "take `malloc`, or an array",
    "atexit": "call it before `exit`",
}
# of names that a header declares where it is, for what the compiler only calls a syntax error
DECLARED = {
    **dict.fromkeys(("int8_t", "uint8_t", "int16_t", "uint16_t", "int32_t", "uint32_t", "intptr_t", "uintptr_t"), "stdint.h"),
    **dict.fromkeys(("bool", "true", "false"), "stdbool.h"),
    **dict.fromkeys(("size_t", "ptrdiff_t", "NULL"), "stddef.h"),
    **dict.fromkeys(("FILE", "stdout", "stderr", "EOF"), "stdio.h"),
    **dict.fromkeys(("pid_t", "ssize_t", "uint", "u_int", "u_long", "u_char"), "sys/types.h"),
    **dict.fromkeys(("time_t", "clock_t"), "time.h"),
    "va_list": "stdarg.h",
}


def own_lines(text, library):
    """the file, the line and the text of each line of a preprocessed text that is none of the library's"""
    file, line = "", 1
    for row in text.split("\n"):
        mark = MARK.match(row)
        if mark:
            file, line = mark[2], int(mark[1])
            continue
        if not file.startswith(library):
            yield file, line, row
        line += 1


def check(text, library):
    """refuses the first construct of a preprocessed text that needs what the machine hasn't; the headers of the library have none, and a
    type that the program defines itself is its own"""
    for file, line, row in own_lines(text, library):
        for found in ANY.finditer(row):
            if not found.lastindex:
                continue
            _, lacks, mend = KNOWN[found.lastindex - 1]
            construct = " ".join(found[found.lastindex].split())
            if not re.search(r"\btypedef\b[^;]*\b" + re.escape(construct) + r"\s*;", text):
                raise Refused(f"{file}:{line}: `{construct}`: {lacks}: {mend}")


def of_header(said):
    """what to do without a header that the preprocessor hasn't found, or nothing"""
    found = re.search(r"(?m)^(.*:\d+): error: cannot find ['\"<]?([\w/.]+)", said)
    return f"{found[1]}: {found[2]} isn't in the library of examples/c: {HEADERS[found[2]]}" if found and found[2] in HEADERS else ""


def of_function(name):
    """what to do without a function, or nothing"""
    return f": {FUNCTIONS[name]}" if name in FUNCTIONS else ""


def of_syntax(said, text, name):
    """what a syntax error of a file may come from, a name of a header that isn't included, or nothing"""
    found = re.search(r"line (\d+): ", said)
    rows = [row for file, line, row in own_lines(text, "\n") if file == name and found and line == int(found[1])]
    for word in re.findall(r"\b[A-Za-z_]\w*\b", " ".join(rows)):
        if word in DECLARED and not re.search(r"\b(typedef|define|enum)\b[^;]*\b" + word + r"\b", text):
            return f"{name}:{found[1]}: `{word}` is of {DECLARED[word]}, which isn't included"
    return ""

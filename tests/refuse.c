// A library that refuses a program one request for memory, a thread, or one call of the system. It
// is loaded before the C library, by LD_PRELOAD. tests/refusing.py builds it, without any header.
//
// What is refused is told at the start, by the variable REFUSE:
//
//   memory N   the Nth request for memory, the first one being 1
//   thread N   each thread from the Nth on
//   call N     the Nth call on a file: it fails as on a broken device (EIO)
//   calls N    each call on a file from the Nth on
//   short N    of the Nth read or write of several bytes, all but the first byte
//
// When something is refused for the first time, its name is written to the file that the variable
// REFUSED names. What is written to the standard error is not counted.
//
// If the variable HASTE is set, the clock is a second later at each look.
//
// A program can also tell it while it runs, by a request for 2^47 + 2^40 * ORDER + N bytes. No
// system grants one, so without this library it changes nothing. Each but the last ends the one
// before.
//
//   0  nothing is refused from here on
//   1  the same, but the next request is refused if something was, since the last such question
//   2  the Nth request for memory is refused
//   3  the Nth request for memory of this thread
//   4  each request by which the program would have N bytes more than now
//   5  each thread from the Nth on
//   6  nothing, but the next request if the program has not as many bytes as at the last of 2 to 5
//   7  as before, but a request of this thread ends the program, if N is 1 and until N is 0

typedef unsigned long size;

enum { EIO = 5, EAGAIN = 11, ENOMEM = 12, O_CREAT = 0100, F_SETLK = 6, F_OFD_SETLK = 37 };

enum order {
    NOTHING, WAS_REFUSED, REQUEST, REQUEST_HERE, BYTES, THREADS, IS_CHANGED, FORBIDDEN, ORDERS
};

extern void *__libc_malloc(size);
extern void *__libc_calloc(size, size);
extern void *__libc_realloc(void *, size);
extern void __libc_free(void *);
extern size malloc_usable_size(void *);
extern void *dlsym(void *, const char *);
extern long syscall(long, ...);
extern char *getenv(const char *);
extern long strtol(const char *, char **, int);
extern size strlen(const char *);
extern int strncmp(const char *, const char *, size);
extern int *__errno_location(void);

#define ATOMIC(step, ...) __atomic_##step(__VA_ARGS__, __ATOMIC_SEQ_CST)

// How many of a kind are still to come, with the one that is refused; 0 or less if none is.
static long requests, calls, shorts;
static __thread long requests_here __attribute__((tls_model("initial-exec")));

// Whether a request of this thread ends the program.
static __thread int is_forbidden __attribute__((tls_model("initial-exec")));

// The thread, and the call on a file, from which on each is refused; 0 if none is. And how many
// there were since that was told.
static long thread_from, threads, call_from, calls_made;

// The bytes that the program has, those that it had at an order, and the most that it may have.
static long held, before, most = __LONG_MAX__;

// Whether something was refused since the last question, and whether the next request is.
static int was_refused, answer;

// The file that REFUSED names, until something is refused.
static const char *place;

// Whether the clock is changed, and by how many seconds.
static int is_hasty;
static long haste;

// Notes that something is refused.
static void note(const char *name) {
    ATOMIC(store_n, &was_refused, 1);
    const char *path = ATOMIC(exchange_n, &place, (const char *)0);
    if (path) {
        // open to write, made anew; write; close
        long file = syscall(2, path, 01101, 0644);
        syscall(1, file, name, strlen(name));
        syscall(3, file);
    }
}

// Whether this is the one that is counted for.
static int is_due(long *left) {
    return ATOMIC(load_n, left) > 0 && ATOMIC(sub_fetch, left, 1) == 0;
}

// Whether this is that one or comes after it, of as many as are counted.
static int is_from(long from, long *made) {
    return from > 0 && ATOMIC(add_fetch, made, 1) >= from;
}

static void take(enum order order, long number) {
    if (order == FORBIDDEN) {
        is_forbidden = number != 0;
        return;
    }
    if (order == WAS_REFUSED) {
        answer = ATOMIC(exchange_n, &was_refused, 0);
    } else if (order == IS_CHANGED) {
        answer = held != before;
    } else {
        before = held;
    }
    requests_here = order == REQUEST_HERE ? number : 0;
    ATOMIC(store_n, &requests, order == REQUEST ? number : 0);
    ATOMIC(store_n, &most, order == BYTES ? held + number : __LONG_MAX__);
    ATOMIC(store_n, &threads, 0);
    ATOMIC(store_n, &thread_from, order == THREADS ? number : 0);
}

// Whether a request for memory is refused, by which the program has `more` bytes more.
static int is_refused(size asked, size more) {
    size order = (asked >> 40) - (1UL << 7);
    if (order < ORDERS) {
        take(order, asked & ((1UL << 40) - 1));
    } else if (is_forbidden) {
        __builtin_trap();
    } else if (answer) {
        answer = 0;
    } else {
        int is_here = requests_here > 0 && --requests_here == 0;
        int is_too_much = (long)more > ATOMIC(load_n, &most) - ATOMIC(load_n, &held);
        if (!is_due(&requests) && !is_here && !is_too_much) {
            return 0;
        }
        note("memory\n");
    }
    *__errno_location() = ENOMEM;
    return 1;
}

static void *counted(void *piece) {
    if (piece) {
        ATOMIC(add_fetch, &held, malloc_usable_size(piece));
    }
    return piece;
}

void *malloc(size asked) {
    return is_refused(asked, asked) ? 0 : counted(__libc_malloc(asked));
}

void *calloc(size count, size each) {
    return is_refused(count * each, count * each) ? 0 : counted(__libc_calloc(count, each));
}

void *realloc(void *old, size asked) {
    size had = old ? malloc_usable_size(old) : 0;
    if (is_refused(asked, asked > had ? asked - had : 0)) {
        return 0;
    }
    void *piece = __libc_realloc(old, asked);
    if (piece) {
        ATOMIC(sub_fetch, &held, had);
    }
    return counted(piece);
}

void free(void *piece) {
    if (piece) {
        ATOMIC(sub_fetch, &held, malloc_usable_size(piece));
    }
    __libc_free(piece);
}

// Whether the call of this name fails.
static int fails(const char *name) {
    if (!is_due(&calls) && !is_from(call_from, &calls_made)) {
        return 0;
    }
    note(name);
    *__errno_location() = EIO;
    return 1;
}

// How many bytes, of several, a read or write moves.
static size moved(const char *name, size length) {
    if (length < 2 || !is_due(&shorts)) {
        return length;
    }
    note(name);
    return 1;
}

// The function of the C library that has the name.
#define REAL(name) \
    static __typeof__(name) *real; \
    if (!real) { \
        real = dlsym((void *)-1L, #name); \
    }

int pthread_create(size *thread, const void *how, void *(*work)(void *), void *with) {
    REAL(pthread_create)
    if (is_from(ATOMIC(load_n, &thread_from), &threads)) {
        note("thread\n");
        return EAGAIN;
    }
    return real(thread, how, work, with);
}

// A call that answers -1 if it fails.
#define CALL(type, name, taken, given) \
    type name taken { \
        REAL(name) \
        return fails(#name "\n") ? -1 : real given; \
    }

CALL(int, fsync, (int file), (file))
CALL(int, fdatasync, (int file), (file))
CALL(int, rename, (const char *from, const char *to), (from, to))
CALL(int, unlink, (const char *path), (path))
CALL(int, mkdir, (const char *path, unsigned mode), (path, mode))
CALL(int, statx, (int folder, const char *path, int flags, unsigned mask, void *found),
     (folder, path, flags, mask, found))
CALL(int, fchmod, (int file, unsigned mode), (file, mode))
CALL(int, fchown, (int file, unsigned owner, unsigned group), (file, owner, group))
CALL(int, flock, (int file, int how), (file, how))
CALL(int, ftruncate, (int file, long length), (file, length))
CALL(long, lseek, (int file, long place, int from), (file, place, from))
CALL(long, getdents64, (int file, void *found, size length), (file, found, length))

char *realpath(const char *path, char *whole) {
    REAL(realpath)
    return fails("realpath\n") ? 0 : real(path, whole);
}

// The mode after the flags of a file that is opened, which is there if the file may be made.
#define MODE(mode) \
    unsigned mode = 0; \
    if (flags & O_CREAT) { \
        __builtin_va_list rest; \
        __builtin_va_start(rest, flags); \
        mode = __builtin_va_arg(rest, unsigned); \
        __builtin_va_end(rest); \
    }

int open(const char *path, int flags, ...) {
    REAL(open)
    MODE(mode)
    return fails("open\n") ? -1 : real(path, flags, mode);
}

int openat(int folder, const char *path, int flags, ...) {
    REAL(openat)
    MODE(mode)
    return fails("openat\n") ? -1 : real(folder, path, flags, mode);
}

// Locks alone are counted.
int fcntl(int file, int command, ...) {
    REAL(fcntl)
    __builtin_va_list rest;
    __builtin_va_start(rest, command);
    void *with = __builtin_va_arg(rest, void *);
    __builtin_va_end(rest);
    int is_lock = command == F_SETLK || command == F_OFD_SETLK;
    return is_lock && fails("fcntl\n") ? -1 : real(file, command, with);
}

long read(int file, void *bytes, size length) {
    REAL(read)
    return fails("read\n") ? -1 : real(file, bytes, moved("read\n", length));
}

long write(int file, const void *bytes, size length) {
    REAL(write)
    if (file == 2) {
        return real(file, bytes, length);
    }
    return fails("write\n") ? -1 : real(file, bytes, moved("write\n", length));
}

struct moment {
    long seconds, nanoseconds;
};

int clock_gettime(int clock, struct moment *now) {
    REAL(clock_gettime)
    int status = real(clock, now);
    if (is_hasty) {
        now->seconds += ATOMIC(add_fetch, &haste, 1);
    }
    return status;
}

// The number after a word, if a text begins with it; else 0.
static long number_after(const char *text, const char *word) {
    size length = strlen(word);
    return strncmp(text, word, length) == 0 ? strtol(text + length, 0, 10) : 0;
}

__attribute__((constructor)) static void begin(void) {
    is_hasty = getenv("HASTE") != 0;
    const char *text = getenv("REFUSE");
    if (text) {
        place = getenv("REFUSED");
        requests = number_after(text, "memory ");
        thread_from = number_after(text, "thread ");
        calls = number_after(text, "call ");
        call_from = number_after(text, "calls ");
        shorts = number_after(text, "short ");
    }
}

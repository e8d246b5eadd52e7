// A malloc and a realloc that refuse the requests from the number REFUSED_REQUEST to REFUSED_LAST, or that one alone,
// and say so by making the file REFUSED_MARK. When the program ends, _exit writes how many requests there were, and for
// how many bytes in all, to the file COUNTED_REQUESTS, where it is named. This includes no header, so that the kit's own
// compiler takes it.
typedef unsigned long size_t;
void *dlsym(void *handle, const char *name);
char *getenv(const char *name);
long atol(const char *text);
int open(const char *name, int flags, ...);
int close(int file);
int dprintf(int file, const char *format, ...);
enum { CREATE = 0100, WRITE_ONLY = 01, OWNER_READS_AND_WRITES = 0600 };

static long asked, bytes, first = -1, last;

static int made(const char *name) { return open(name, CREATE | WRITE_ONLY, OWNER_READS_AND_WRITES); }

static int refused(size_t size) {
    if (first < 0) {
        const char *from = getenv("REFUSED_REQUEST"), *to = getenv("REFUSED_LAST");
        last = to ? atol(to) : from ? atol(from) : 0;
        first = from ? atol(from) : 0;
    }
    long number = __atomic_add_fetch(&asked, 1, __ATOMIC_SEQ_CST);
    __atomic_add_fetch(&bytes, size, __ATOMIC_SEQ_CST);
    if (number < first || last < number)
        return 0;
    int mark = made(getenv("REFUSED_MARK"));
    if (mark >= 0)
        close(mark);
    return 1;
}

static void *next_of(const char *name) { return dlsym((void *)-1L, name); }

// A proved program ends by this call, after which no destructor runs.
void _exit(int status) {
    const char *name = getenv("COUNTED_REQUESTS");
    int file = name ? made(name) : -1;
    if (file >= 0) {
        dprintf(file, "%ld %ld\n", asked, bytes);
        close(file);
    }
    ((void (*)(int))next_of("_exit"))(status);
    __builtin_unreachable();
}

void *malloc(size_t size) {
    static void *(*next)(size_t);
    if (!next)
        next = (void *(*)(size_t))next_of("malloc");
    return refused(size) ? 0 : next(size);
}

void *realloc(void *block, size_t size) {
    static void *(*next)(void *, size_t);
    if (!next)
        next = (void *(*)(void *, size_t))next_of("realloc");
    return refused(size) ? 0 : next(block, size);
}

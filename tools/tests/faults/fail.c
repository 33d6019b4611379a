/* Loaded before a program (LD_PRELOAD), this makes some of its calls of the C library fail, and writes one `!` to standard
   error where the first of them is. The environment names them:

     FAULT_CALL   growth: malloc, realloc, calloc, aligned_alloc and posix_memalign together; bpfspec calls the first two
                  thread: pthread_create
                  read: of standard input    write: to standard output
     FAULT_KIND   fails: growths give no memory, threads EAGAIN, reads and writes EIO
                  stays_failed: so do all such calls behind it
                  short: a read or a write moves at most one byte
                  breaks: so does it, and all behind it give EIO
                  interrupted: a read or a write gives EINTR
     FAULT_AT     which of these calls it is, counted from 1 over all threads

   Where they name none, nothing fails. No header is included, since the kit's compiler brings none. */

typedef unsigned long size;
typedef long count;

extern int *__errno_location(void);
extern char *getenv(const char *name);
extern int strcmp(const char *left, const char *right);
extern long atol(const char *digits);
extern void *dlsym(void *after, const char *name);
extern void *__libc_malloc(size bytes);
extern void *__libc_calloc(size items, size bytes);
extern void *__libc_realloc(void *old, size bytes);
extern void *__libc_memalign(size alignment, size bytes);
extern count __read(int file, void *bytes, size most);
extern count __write(int file, const void *bytes, size most);

enum { STANDARD_INPUT, STANDARD_OUTPUT, STANDARD_ERROR };
enum { EINTR = 4, EIO = 5, EAGAIN = 11, ENOMEM = 12 };
#define NEXT ((void *)-1l) /* RTLD_NEXT */

enum call { NO_CALL, GROWTH, THREAD, READ, WRITE };
enum kind { NO_FAULT, FAILS, STAYS_FAILED, SHORT, BREAKS, INTERRUPTED };
static const char *const CALLS[] = {"", "growth", "thread", "read", "write"};
static const char *const KINDS[] = {"", "fails", "stays_failed", "short", "breaks", "interrupted"};

static struct { enum call call; enum kind kind; long at; } fault;
static long calls; /* of the kind that the fault names, up to now */

/* The number of a name in a table, 0 where the environment has none or another. */
static int named(const char *variable, const char *const *names, int most) {
    const char *name = getenv(variable);
    for (int i = most; name && i > 0; i--)
        if (!strcmp(name, names[i])) return i;
    return 0;
}

__attribute__((constructor)) static void read_environment(void) {
    const char *at = getenv("FAULT_AT");
    fault.kind = named("FAULT_KIND", KINDS, INTERRUPTED);
    fault.at = at ? atol(at) : 0;
    fault.call = named("FAULT_CALL", CALLS, WRITE);
}

/* What becomes of such a call. */
static enum kind kind_of(enum call call) {
    if (call != fault.call) return NO_FAULT;
    long number = __atomic_add_fetch(&calls, 1, __ATOMIC_SEQ_CST);
    int lasts = fault.kind == STAYS_FAILED || fault.kind == BREAKS;
    if (number > fault.at) return lasts ? FAILS : NO_FAULT;
    if (number < fault.at) return NO_FAULT;
    __write(STANDARD_ERROR, "!", 1);
    return fault.kind;
}

static int is_refused(void) {
    if (kind_of(GROWTH) == NO_FAULT) return 0;
    *__errno_location() = ENOMEM;
    return 1;
}

void *malloc(size bytes) { return is_refused() ? 0 : __libc_malloc(bytes); }
void *calloc(size items, size bytes) { return is_refused() ? 0 : __libc_calloc(items, bytes); }
void *realloc(void *old, size bytes) { return is_refused() ? 0 : __libc_realloc(old, bytes); }
void *aligned_alloc(size alignment, size bytes) { return is_refused() ? 0 : __libc_memalign(alignment, bytes); }

int posix_memalign(void **made, size alignment, size bytes) {
    void *memory = aligned_alloc(alignment, bytes);
    if (memory) *made = memory;
    return memory ? 0 : ENOMEM;
}

int pthread_create(void *thread, const void *attributes, void *(*start)(void *), void *argument) {
    int (*next)(void *, const void *, void *(*)(void *), void *) = dlsym(NEXT, "pthread_create");
    return kind_of(THREAD) == NO_FAULT ? next(thread, attributes, start, argument) : EAGAIN;
}

/* How many bytes a read or a write may move, or -1 and its error. */
static count length(enum call call, size most) {
    enum kind kind = kind_of(call);
    if (kind == SHORT || kind == BREAKS) return most > 1 ? 1 : (count)most;
    if (kind == NO_FAULT) return (count)most;
    *__errno_location() = kind == INTERRUPTED ? EINTR : EIO;
    return -1;
}

count read(int file, void *bytes, size most) {
    count moved = file == STANDARD_INPUT ? length(READ, most) : (count)most;
    return moved < 0 ? moved : __read(file, bytes, (size)moved);
}

count write(int file, const void *bytes, size most) {
    count moved = file == STANDARD_OUTPUT ? length(WRITE, most) : (count)most;
    return moved < 0 ? moved : __write(file, bytes, (size)moved);
}

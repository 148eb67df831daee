// Refuses requests for memory from outside a program: loaded before the C library, it forks at each request. The new process
// gets no memory for this one and runs to its end. The process itself gets its memory and goes on to the next request, so that
// one run tries each of them.
//
// REFUSE_REPORT names a file, to which it is told in the end how many requests there were and how the copies ended. Each way to
// end that was seen has a line with its count, the status, and the lengths of what went to standard output and to standard error,
// and after it these two texts and a line end.

typedef unsigned long size;

enum { RUNNING, COUNTING, REFUSING };
enum { OUT_OF_TIME = 30, WRITE_NEW = 01101, MODE = 0600, TEXT = 1 << 16, WAYS = 32 };

// A way in which copies ended: the status, or minus the signal, and what was written.
struct way {
    long count, out_length, err_length;
    int status;
    char out[TEXT], err[TEXT];
};

extern void *dlsym(void *, const char *);
extern char *getenv(const char *);
extern int fork(void), open(const char *, int, ...), close(int), dup2(int, int), waitpid(int, int *, int);
extern int memfd_create(const char *, unsigned), memcmp(const void *, const void *, size), snprintf(char *, size, const char *, ...);
extern void *memcpy(void *, const void *, size);
extern long pread(int, void *, size, long), write(int, const void *, size);
extern unsigned alarm(unsigned);

static void *(*given_malloc)(size), *(*given_calloc)(size, size), *(*given_realloc)(void *, size), *(*given_aligned)(size, size);
static int state = RUNNING;
static struct way ways[WAYS + 1], seen;
static int way_count;
static char early[1 << 16];
static size early_used;
static long requests;

// Counts how a copy ended. Past the last place all other ways are counted as one.
static void count(int process, int out, int err) {
    int status = 0, at = 0;
    waitpid(process, &status, 0);
    seen.status = status & 127 ? -(status & 127) : status >> 8 & 255;
    seen.out_length = pread(out, seen.out, TEXT, 0);
    seen.err_length = pread(err, seen.err, TEXT, 0);
    while (at < way_count
           && (ways[at].status != seen.status || ways[at].out_length != seen.out_length || ways[at].err_length != seen.err_length
               || memcmp(ways[at].out, seen.out, seen.out_length) || memcmp(ways[at].err, seen.err, seen.err_length)))
        at++;
    if (at == way_count) {
        seen.count = ways[at].count;
        memcpy(&ways[at], &seen, sizeof seen);
        if (way_count < WAYS) way_count++;
    }
    ways[at].count++;
}

// Runs the rest of the program with this request refused, and says in the new process that it is. With `after` all requests
// after it are refused too.
static int refused_in_a_copy(int after) {
    int out = memfd_create("out", 0), err = memfd_create("err", 0);
    int process = fork();
    if (process == 0) {
        state = after ? REFUSING : RUNNING;
        dup2(out, 1);
        dup2(err, 2);
        alarm(OUT_OF_TIME);
        return 1;
    }
    count(process, out, err);
    close(out);
    close(err);
    return 0;
}

// Whether this request is to be refused.
static int refuses(void) {
    if (state != COUNTING) return state == REFUSING;
    requests++;
    return refused_in_a_copy(0) || refused_in_a_copy(1);
}

static void find(void) {
    given_malloc = (void *(*)(size))dlsym((void *)-1, "malloc");
    given_calloc = (void *(*)(size, size))dlsym((void *)-1, "calloc");
    given_realloc = (void *(*)(void *, size))dlsym((void *)-1, "realloc");
    given_aligned = (void *(*)(size, size))dlsym((void *)-1, "aligned_alloc");
}

__attribute__((constructor)) static void begin(void) {
    find();
    if (getenv("REFUSE_REPORT")) state = COUNTING;
}

__attribute__((destructor)) static void end(void) {
    if (state != COUNTING) return;
    state = RUNNING;
    char line[128];
    int file = open(getenv("REFUSE_REPORT"), WRITE_NEW, MODE);
    write(file, line, snprintf(line, sizeof line, "%ld\n", requests));
    for (int at = 0; at <= way_count; at++) {
        struct way *way = &ways[at];
        if (way->count == 0) continue;
        write(file, line, snprintf(line, sizeof line, "%ld %d %ld %ld\n", way->count, way->status, way->out_length, way->err_length));
        write(file, way->out, way->out_length);
        write(file, way->err, way->err_length);
        write(file, "\n", 1);
    }
    close(file);
}

// Memory for requests that come before the C library's own calls are found.
static void *early_memory(size bytes) {
    char *block = early + early_used;
    early_used += (bytes + 15) & ~15UL;
    return early_used <= sizeof early ? block : 0;
}

void *malloc(size bytes) {
    if (!given_malloc) return early_memory(bytes);
    return refuses() ? 0 : given_malloc(bytes);
}

void *calloc(size count, size bytes) {
    if (!given_calloc) return early_memory(count * bytes);
    return refuses() ? 0 : given_calloc(count, bytes);
}

void *realloc(void *block, size bytes) {
    return refuses() ? 0 : given_realloc(block, bytes);
}

void *aligned_alloc(size alignment, size bytes) {
    return refuses() ? 0 : given_aligned(alignment, bytes);
}

// Preloaded before a program. Refuses its Nth request for memory, where N is REFUSE of the environment,
// and, if REFUSE_ON is there, every later one too. Sets errno as malloc(3) does, and writes a
// byte to descriptor 3 for each refusal.

typedef __SIZE_TYPE__ size_t;

void *__libc_malloc(size_t size);
void *__libc_calloc(size_t count, size_t size);
void *__libc_realloc(void *kept, size_t size);
char *getenv(const char *name);
long write(int descriptor, const void *bytes, size_t count);
long atol(const char *text);
int *__errno_location(void);

enum { NO_MEMORY = 12 };

static long first;
static int goes_on;
static long requests;

__attribute__((constructor)) static void begin(void) {
    const char *refuse = getenv("REFUSE");
    first = refuse ? atol(refuse) : 0;
    goes_on = getenv("REFUSE_ON") != 0;
}

static int is_refused(void) {
    if (first == 0) return 0;
    long request = __atomic_add_fetch(&requests, 1, __ATOMIC_SEQ_CST);
    if (request < first || (request > first && !goes_on)) return 0;
    write(3, "", 1);
    *__errno_location() = NO_MEMORY;
    return 1;
}

void *malloc(size_t size) { return is_refused() ? 0 : __libc_malloc(size); }

void *calloc(size_t count, size_t size) { return is_refused() ? 0 : __libc_calloc(count, size); }

void *realloc(void *kept, size_t size) { return is_refused() ? 0 : __libc_realloc(kept, size); }

// A heap that refuses one request for memory, to be preloaded into a program. The environment variable REFUSE has the number of that request, counted from
// 1. The start of a thread counts as a request. When the request is refused a byte is written to file descriptor 9, which shows that so many requests were
// made; a byte is written to descriptor 8 for each thread that starts.
typedef __SIZE_TYPE__ size_t;

extern char **environ;
void *__libc_malloc(size_t);
void *__libc_realloc(void *, size_t);
void *dlsym(void *, const char *);
long write(int, const void *, size_t);

static size_t wanted(void) {
    size_t number = 0;
    for (char **word = environ; word && *word; word++) {
        const char *name = "REFUSE=";
        const char *at = *word;
        while (*name && *at == *name) at++, name++;
        if (*name) continue;
        while (*at >= '0' && *at <= '9') number = number * 10 + (size_t)(*at++ - '0');
    }
    return number;
}

static int is_refused(void) {
    static size_t requests;
    if (__atomic_add_fetch(&requests, 1, __ATOMIC_SEQ_CST) != wanted()) return 0;
    write(9, "!", 1);
    return 1;
}

void *malloc(size_t bytes) {
    return is_refused() ? 0 : __libc_malloc(bytes);
}

void *realloc(void *old, size_t bytes) {
    return is_refused() ? 0 : __libc_realloc(old, bytes);
}

int pthread_create(void *thread, const void *attributes, void *(*start)(void *), void *argument) {
    static int (*create)(void *, const void *, void *(*)(void *), void *);
    if (is_refused()) return 11; // EAGAIN
    write(8, "t", 1);
    if (!create) *(void **)&create = dlsym((void *)-1, "pthread_create"); // RTLD_NEXT
    return create(thread, attributes, start, argument);
}

// Streams that take or give little and then fail, to be preloaded into a program. The environment variables WRITES and READS each name a file descriptor
// and then two numbers: how many bytes one call takes or gives at most, and how many all calls together do. Once so many are taken or given, the next
// call fails. If a call may take no byte, each call takes none, and doesn't fail. Other descriptors, and all if a variable isn't set, are as ever.
#ifndef __x86_64__
#error "READ and WRITE are the system's calls on an x86-64"
#endif
typedef __SIZE_TYPE__ size_t;

extern char **environ;
int *__errno_location(void);
long syscall(long, ...);

enum { READ = 0, WRITE = 1, IO_ERROR = 5, BROKEN_PIPE = 32 };

// What one of the variables says.
struct limit {
    int is_set;
    size_t descriptor, at_once, in_all;
};

// The limit that the variable of this name sets, which ends with its `=`.
static struct limit limit_of(const char *variable) {
    struct limit found = {0, 0, 0, 0};
    for (char **word = environ; word && *word; word++) {
        const char *name = variable;
        const char *at = *word;
        while (*name && *at == *name) at++, name++;
        if (*name) continue;
        size_t *numbers[] = {&found.descriptor, &found.at_once, &found.in_all};
        for (int i = 0; i < 3; i++) {
            while (*at >= '0' && *at <= '9') *numbers[i] = *numbers[i] * 10 + (size_t)(*at++ - '0');
            if (*at == ' ') at++;
        }
        found.is_set = 1;
    }
    return found;
}

// Reads or writes as `call` says, within the limit of this variable. `done` counts the bytes of all calls so far; `fault` is the error behind the last
// one.
static long within(const char *variable, long call, int descriptor, void *bytes, size_t count, size_t *done, int fault) {
    struct limit limit = limit_of(variable);
    if (!limit.is_set || limit.descriptor != (size_t)descriptor) return syscall(call, descriptor, bytes, count);
    if (limit.at_once == 0) return 0;
    size_t left = limit.in_all - *done;
    if (left == 0) {
        *__errno_location() = fault;
        return -1;
    }
    if (count > limit.at_once) count = limit.at_once;
    if (count > left) count = left;
    long moved = syscall(call, descriptor, bytes, count);
    if (moved > 0) *done += (size_t)moved;
    return moved;
}

long write(int descriptor, const void *bytes, size_t count) {
    static size_t done;
    return within("WRITES=", WRITE, descriptor, (void *)bytes, count, &done, BROKEN_PIPE);
}

long __write(int descriptor, const void *bytes, size_t count) { return write(descriptor, bytes, count); }

long read(int descriptor, void *bytes, size_t count) {
    static size_t done;
    return within("READS=", READ, descriptor, bytes, count, &done, IO_ERROR);
}

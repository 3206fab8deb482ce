/* Preloaded, it lets one allocation fail: the one whose number, from 1 on, FAILING gives, and reports it on descriptor
   3. Where FAILING is 0 none fails, and it writes a line there for each. It takes no header, since the kit's compiler
   comes without any. */
typedef __SIZE_TYPE__ size_t;

extern void *dlsym(void *handle, const char *name);
extern char *getenv(const char *name);
extern long atol(const char *digits);
extern long write(int descriptor, const void *bytes, size_t count);

/* The next library that has a name, as <dlfcn.h> declares it. */
#define NEXT ((void *)-1L)

static int fails(void) {
    static long left = -1;
    static int lists;
    if (left < 0) {
        const char *number = getenv("FAILING");
        left = number ? atol(number) : 0;
        lists = left == 0;
    }
    if (lists)
        write(3, "requested\n", 10);
    if (left == 0 || --left > 0)
        return 0;
    write(3, "failed\n", 7);
    return 1;
}

void *malloc(size_t size) {
    static void *(*next)(size_t);
    if (!next)
        next = (void *(*)(size_t))dlsym(NEXT, "malloc");
    return fails() ? 0 : next(size);
}

void *realloc(void *block, size_t size) {
    static void *(*next)(void *, size_t);
    if (!next)
        next = (void *(*)(void *, size_t))dlsym(NEXT, "realloc");
    return fails() ? 0 : next(block, size);
}

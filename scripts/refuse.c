/* Refuses the growth of memory whose number from 1 stands in REFUSE_AT, and says so on descriptor 9. */
extern void *__libc_malloc(unsigned long);
extern void *__libc_realloc(void *, unsigned long);
extern char *getenv(const char *);
extern long write(int, const void *, unsigned long);

static long at = -1;
static long count;

static int is_refused(void) {
    if (at < 0) {
        char *text = getenv("REFUSE_AT");
        at = 0;
        while (text && *text) at = at * 10 + (*text++ - '0');
    }
    if (__atomic_add_fetch(&count, 1, __ATOMIC_RELAXED) != at) return 0;
    write(9, "refused\n", 8);
    return 1;
}

void *malloc(unsigned long size) { return is_refused() ? 0 : __libc_malloc(size); }

void *realloc(void *old, unsigned long size) { return is_refused() ? 0 : __libc_realloc(old, size); }

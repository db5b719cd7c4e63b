/* Tells on descriptor 9 of each write at an offset (w), each sync of a file (s) or a folder (d), with its descriptor, and each new name (n),
   once it came back well. */
extern void *dlsym(void *, const char *);
extern long write(int, const void *, unsigned long);
extern int openat(int, const char *, int, ...);
extern int close(int);

static void tell(char what, int file) {
    char line[16];
    int at = sizeof line;
    line[--at] = '\n';
    do line[--at] = '0' + file % 10;
    while (file /= 10);
    line[--at] = ' ';
    line[--at] = what;
    write(9, line + at, sizeof line - at);
}

static void *behind(const char *name) { return dlsym((void *)-1, name); }

long pwrite(int file, const void *bytes, unsigned long size, long at) {
    long (*call)(int, const void *, unsigned long, long) = behind("pwrite");
    long done = call(file, bytes, size, at);
    if (done > 0) tell('w', file);
    return done;
}

static int is_folder(int file) {
    int found = openat(file, ".", 0);
    if (found >= 0) close(found);
    return found >= 0;
}

int fsync(int file) {
    int (*call)(int) = behind("fsync");
    int done = call(file);
    if (done == 0) tell(is_folder(file) ? 'd' : 's', file);
    return done;
}

int rename(const char *from, const char *to) {
    int (*call)(const char *, const char *) = behind("rename");
    int done = call(from, to);
    if (done == 0) tell('n', 0);
    return done;
}

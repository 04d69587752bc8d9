// In front of the C library's malloc and realloc: refuses the request for memory whose number, counted from 1, REFUSE says; with a `+`
// after the number each from that one on.
//
// Where BEFORE and AFTER are set, only the requests between one for BEFORE bytes and one for AFTER bytes count. To the file whose number
// REFUSED_TO says it writes a byte for each request: `r` for one that is refused, `.` for another that counts, `o` for one outside.

extern void *__libc_malloc(unsigned long size);
extern void *__libc_realloc(void *old, unsigned long size);
extern char *getenv(const char *name);
extern int atoi(const char *text);
extern long write(int file, const void *from, unsigned long size);

static int number;
static int is_between;

/// Whether a request counts. That for BEFORE bytes and that for AFTER bytes do not.
static int counts(unsigned long size) {
    const char *before = getenv("BEFORE");
    const char *after = getenv("AFTER");
    if (!before || !after) {
        return 1;
    }
    if (size == (unsigned long)atoi(before)) {
        is_between = 1;
        return 0;
    }
    if (size == (unsigned long)atoi(after)) {
        is_between = 0;
    }
    return is_between;
}

/// Whether a `+` ends this.
static int is_open(const char *refused) {
    while (refused[0] && refused[1]) {
        refused += 1;
    }
    return refused[0] == '+';
}

static int is_refused(unsigned long size) {
    const char *refused = getenv("REFUSE");
    const char *to = getenv("REFUSED_TO");
    if (!refused || !to) {
        return 0;
    }
    if (!counts(size)) {
        write(atoi(to), "o", 1);
        return 0;
    }
    number += 1;
    int first = atoi(refused);
    if (number < first || (number > first && !is_open(refused))) {
        write(atoi(to), ".", 1);
        return 0;
    }
    write(atoi(to), "r", 1);
    return 1;
}

void *malloc(unsigned long size) { return is_refused(size) ? 0 : __libc_malloc(size); }

void *realloc(void *old, unsigned long size) { return is_refused(size) ? 0 : __libc_realloc(old, size); }

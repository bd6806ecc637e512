/* Refuses one call of malloc, calloc or realloc of a program: the one whose number the variable
   REFUSE tells, counted from 1; none where it is 0.
   Where the variable ABOVE tells a number, each call for more bytes than that is refused too.
   As the program ends the number of its calls is written to descriptor 9.
   It is loaded before the C library, for glibc; tools/compare/refuse_memory builds it. */

typedef unsigned long size;

extern void *__libc_malloc(size), *__libc_calloc(size, size), *__libc_realloc(void *, size);
extern char *getenv(const char *);
extern long write(int, const void *, size);

static size calls, refused, most;
static int ready;

/* The number that a variable tells; 0 where it tells none. */
static size number_in(const char *name) {
    const char *word = getenv(name);
    size number = 0;
    while (word && *word >= '0' && *word <= '9')
        number = number * 10 + (size)(*word++ - '0');
    return number;
}

/* Counts a call for so many bytes, and says whether it is refused. */
static int is_due(size length) {
    if (!ready) {
        ready = 1;
        refused = number_in("REFUSE");
        most = number_in("ABOVE");
    }
    calls += 1;
    return calls == refused || (most && length > most);
}

void *malloc(size length) { return is_due(length) ? 0 : __libc_malloc(length); }

void *calloc(size count, size length) {
    return is_due(count * length) ? 0 : __libc_calloc(count, length);
}

void *realloc(void *block, size length) {
    return is_due(length) ? 0 : __libc_realloc(block, length);
}

/* Writes the number of calls, in decimal, with a line feed. */
static __attribute__((destructor)) void tell(void) {
    char text[24];
    int at = 24;
    size left = calls;
    text[--at] = '\n';
    do text[--at] = (char)('0' + left % 10); while (left /= 10);
    write(9, text + at, (size)(24 - at));
}

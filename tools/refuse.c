/* Refuses one growth of a program's memory, and says so on standard error: the call of malloc or realloc whose number,
 * from 1, the variable REFUSED_GROWTH gives. It is loaded ahead of the C library. What it calls is declared here, so that
 * the toolchain's compiler makes it with no headers.
 *
 * PLANTED is the number of a mistake: the program on top of this library is then like one that makes it. */

typedef __SIZE_TYPE__ size_t;

char *getenv(const char *name);
long atol(const char *text);
long write(int file, const void *bytes, size_t count);
void *__libc_malloc(size_t size);
void *__libc_realloc(void *old, size_t size);
void *memset(void *block, int byte, size_t size);
size_t malloc_usable_size(void *block);

/* The mistakes, in the order of tools/refused-growths. */
enum { NO_MISTAKE, REFUSAL_IS_IGNORED, REFUSED_LIST_IS_LOST, REFUSAL_IS_FOR_GOOD };
#ifndef PLANTED
#define PLANTED NO_MISTAKE
#endif

static long grown, refused = -1;

static int is_refused(void) {
    if (refused < 0) {
        const char *number = getenv("REFUSED_GROWTH");
        refused = number ? atol(number) : 0;
    }
    grown++;
    if (PLANTED == REFUSAL_IS_FOR_GOOD ? !refused || grown < refused : grown != refused) {
        return 0;
    }
    static const char said[] = "a growth is refused\n";
    write(2, said, sizeof said - 1);
    return PLANTED != REFUSAL_IS_IGNORED;
}

/* What a refused growth of this block gives. */
static void *refuse(void *old) {
    if (PLANTED == REFUSED_LIST_IS_LOST && old) {
        memset(old, 0, malloc_usable_size(old));
    }
    return 0;
}

void *malloc(size_t size) { return is_refused() ? refuse(0) : __libc_malloc(size); }

void *realloc(void *old, size_t size) { return is_refused() ? refuse(old) : __libc_realloc(old, size); }

/* Growths of memory, of which one can be refused from within the program. It is compiled without headers. */
typedef unsigned long size;
extern void *__libc_malloc(size);
extern void *__libc_realloc(void *, size);
static size left, refused;
size refuse_growth(size number) {
    size before = refused;
    left = number;
    refused = 0;
    return before;
}
static int is_refused(void) {
    if (left == 0 || --left != 0) return 0;
    refused++;
    return 1;
}
void *malloc(size bytes) { return is_refused() ? 0 : __libc_malloc(bytes); }
void *realloc(void *old, size bytes) { return is_refused() ? 0 : __libc_realloc(old, bytes); }

/* Which wrong body a run is to have, where the store is built with some. */
extern char *getenv(const char *);
extern long atol(const char *);
unsigned long wrong_body(void) {
    static long asked = -1;
    if (asked < 0) {
        const char *text = getenv("WRONG_BODY");
        asked = text ? atol(text) : 0;
    }
    return (unsigned long)asked;
}

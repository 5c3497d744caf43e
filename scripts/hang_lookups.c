/* Has the look-up of each name that begins with `hangs` not come back for a minute, in the program that it is loaded into with LD_PRELOAD, for
 * scripts/try_edge.py. For Linux. It declares what it calls itself: so a compiler builds it that has no headers. */

extern void *dlsym(void *handle, const char *name);
extern unsigned int sleep(unsigned int seconds);

typedef int look_up(const char *name, const char *port, const void *how, void **found);

/* RTLD_NEXT, and EAI_AGAIN. */
#define NEXT ((void *)-1)
#define AGAIN (-3)

static int hangs(const char *name) {
    static const char first[] = "hangs";
    for (int i = 0; first[i]; i++)
        if (!name || name[i] != first[i])
            return 0;
    return 1;
}

int getaddrinfo(const char *name, const char *port, const void *how, void **found) {
    if (hangs(name)) {
        sleep(60);
        return AGAIN;
    }
    return ((look_up *)dlsym(NEXT, "getaddrinfo"))(name, port, how, found);
}

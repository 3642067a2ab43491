// Stands between peaktable and the system, so that test/table_calls can say how much a call moves and which one fails. It is preloaded,
// and includes nothing: any C compiler builds it, that of the kit too. By environment, each a list of numbers with commas:
//   READ_MOST    the first read of standard input is handed so many bytes at most, the second the next count, and so on, over and over
//   WRITE_MOST   the same of writes to standard output
//   READ_FAILS   reads that fail, counted from 1
//   WRITE_FAILS  writes that fail
//   NONBLOCK     set: standard input is made non-blocking at the start
char *getenv(const char *);
long syscall(long, ...);
int *__errno_location(void);

enum { SYS_READ = 0, SYS_WRITE = 1, SYS_FCNTL = 72, F_SETFL = 4, O_NONBLOCK = 2048, EIO = 5 };

static unsigned long number(const char **at) {
    unsigned long n = 0;
    while (**at >= '0' && **at <= '9') n = n * 10 + (unsigned long)(*(*at)++ - '0');
    if (**at == ',') (*at)++;
    return n;
}

// the k-th number of a list that starts anew at its end, or n for no list
static unsigned long most(const char *name, unsigned long k, unsigned long n) {
    const char *list = getenv(name), *at;
    unsigned long count = 0, value = 0;
    if (!list || !*list) return n;
    for (at = list; *at; count++) number(&at);
    k %= count;
    for (at = list, count = 0; count <= k; count++) value = number(&at);
    return value < n ? value : n;
}

static int listed(const char *name, unsigned long k) {
    const char *at = getenv(name);
    if (at) while (*at) if (number(&at) == k) return 1;
    return 0;
}

__attribute__((constructor)) static void start(void) {
    if (getenv("NONBLOCK")) syscall(SYS_FCNTL, 0, F_SETFL, O_NONBLOCK);
}

long read(int fd, void *buf, unsigned long n) {
    static unsigned long calls;
    if (fd != 0) return syscall(SYS_READ, fd, buf, n);
    calls++;
    if (listed("READ_FAILS", calls)) return *__errno_location() = EIO, -1;
    return syscall(SYS_READ, fd, buf, most("READ_MOST", calls - 1, n));
}

long write(int fd, const void *buf, unsigned long n) {
    static unsigned long calls;
    if (fd != 1) return syscall(SYS_WRITE, fd, buf, n);
    calls++;
    if (listed("WRITE_FAILS", calls)) return *__errno_location() = EIO, -1;
    return syscall(SYS_WRITE, fd, buf, most("WRITE_MOST", calls - 1, n));
}

/* A heap that refuses one request for memory. It is preloaded into a program and hands every other request on to the C library.

   The program begins and ends the count itself, by requests that no heap grants, since they are greater than the address space:

     ARM bytes   from here on requests are counted, and the one numbered REFUSE_AT (of the environment) is refused
     END bytes   the count ends; the request is granted (by a block of one byte, which is not to be touched) exactly where
                 one was refused since it began
     LEAK bytes  granted likewise exactly where more or fewer blocks are held than when the count began
     SIZE bytes  refused; it tells how many bytes are held beyond those when the count began, and how many of them are in
                 the largest block that was given out since

   If REFUSE_FROM_START is in the environment, the count begins when the program does, and ends with it.

   Without this heap all are refused, so the same test learns that it met no refusal. What happens is written to the file
   descriptor REFUSE_TELLS (of the environment), a line each: 'armed', 'refused', 'bytes HELD LARGEST', 'asked BYTES' and
   'ended' as the count ends, BYTES being all that was asked for since it began, and 'held BLOCKS' as the program ends, where
   no block should be held. Without a REFUSE_AT no request is refused. The functions below are the C library's calls by which a program's heap asks for memory
   and gives it back. No header is needed. */

typedef unsigned long size;

extern void *dlsym(void *, const char *);
extern char *getenv(const char *);
extern unsigned long strtoul(const char *, char **, int);
extern long write(int, const void *, size);
extern int dprintf(int, const char *, ...);
extern size malloc_usable_size(void *);

#define ARM ((size)1 << 48)
#define END (((size)1 << 49) + 1)
#define LEAK (((size)1 << 49) + 2)
#define SIZE (((size)1 << 49) + 3)
#define NEXT ((void *)-1) /* dlsym's RTLD_NEXT: the C library's function of the name */
#define OUT_OF_MEMORY 12  /* ENOMEM, which posix_memalign answers */

static size left; /* how many requests there are up to the one to refuse; 0: none is counted */
static int met;   /* whether one was refused since the count began */
static long held; /* how many blocks were given out and not taken back */
static long held_first; /* how many of them there were when the count began */
static long bytes; /* how many bytes those blocks have */
static long bytes_first; /* how many they had when the count began */
static size largest; /* how many the largest block has that was given out since */
static size asked_in_all; /* how many bytes the requests since were for */

static size given(const char *name) {
    const char *number = getenv(name);
    return number ? strtoul(number, 0, 10) : 0;
}

static void tell(const char *line, size length) {
    if (write(given("REFUSE_TELLS"), line, length) != (long)length) __builtin_trap();
}

static void *arm(void) {
    left = given("REFUSE_AT");
    met = 0;
    held_first = held;
    bytes_first = bytes;
    largest = 0;
    asked_in_all = 0;
    tell("armed\n", 6);
    return 0;
}

/* Ends the count. */
static void disarm(void) {
    left = 0;
    dprintf(given("REFUSE_TELLS"), "asked %lu\n", asked_in_all);
    tell("ended\n", 6);
}

/* Whether this request, for so many bytes, is the one to refuse. */
static int refuses(size asked) {
    asked_in_all += asked;
    if (left == 0 || --left != 0) return 0;
    met = 1;
    tell("refused\n", 8);
    return 1;
}

/* Counts the bytes of a block that the C library gave. */
static void add_bytes(void *block) {
    size room = malloc_usable_size(block);
    bytes += room;
    if (largest < room) largest = room;
}

/* Counts the block that the C library gave, if it gave one. */
static void *counted(void *block) {
    if (block) {
        held++;
        add_bytes(block);
    }
    return block;
}

/* Counts a block no more. */
static void uncount(void *block) {
    if (block) {
        held--;
        bytes -= malloc_usable_size(block);
    }
}

static void *tell_bytes(void) {
    dprintf(given("REFUSE_TELLS"), "bytes %ld %lu\n", bytes - bytes_first, largest);
    return 0;
}

void *malloc(size asked) {
    static void *(*next)(size);
    if (!next) next = (void *(*)(size))dlsym(NEXT, "malloc");
    if (asked == ARM) return arm();
    if (asked == END) {
        disarm();
        return met ? counted(next(1)) : 0;
    }
    if (asked == LEAK) return held != held_first ? counted(next(1)) : 0;
    if (asked == SIZE) return tell_bytes();
    return refuses(asked) ? 0 : counted(next(asked));
}

void free(void *block) {
    static void (*next)(void *);
    if (!next) next = (void (*)(void *))dlsym(NEXT, "free");
    uncount(block);
    next(block);
}

void *realloc(void *block, size asked) {
    static void *(*next)(void *, size);
    if (!next) next = (void *(*)(void *, size))dlsym(NEXT, "realloc");
    if (refuses(asked)) return 0;
    size room = block ? malloc_usable_size(block) : 0;
    void *moved = next(block, asked);
    if (!block) return counted(moved);
    if (moved) {
        bytes -= room;
        add_bytes(moved);
    }
    return moved;
}

void *calloc(size count, size bytes) {
    static void *(*next)(size, size);
    if (!next) next = (void *(*)(size, size))dlsym(NEXT, "calloc");
    return refuses(count * bytes) ? 0 : counted(next(count, bytes));
}

void *aligned_alloc(size alignment, size bytes) {
    static void *(*next)(size, size);
    if (!next) next = (void *(*)(size, size))dlsym(NEXT, "aligned_alloc");
    return refuses(bytes) ? 0 : counted(next(alignment, bytes));
}

int posix_memalign(void **block, size alignment, size bytes) {
    static int (*next)(void **, size, size);
    if (!next) next = (int (*)(void **, size, size))dlsym(NEXT, "posix_memalign");
    if (refuses(bytes)) return OUT_OF_MEMORY;
    int error = next(block, alignment, bytes);
    if (!error) counted(*block);
    return error;
}

__attribute__((constructor)) static void begin(void) {
    if (getenv("REFUSE_FROM_START")) arm();
}

__attribute__((destructor)) static void end(void) {
    if (getenv("REFUSE_FROM_START")) disarm();
    if (getenv("REFUSE_TELLS")) dprintf(given("REFUSE_TELLS"), "held %ld\n", held);
}

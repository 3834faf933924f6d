// The heap of the module: what the toolchain's c/heap.c is over malloc, here over blocks of the module's own memory. No proof covers it. It stands for malloc,
// realloc and free, and gives blocks at multiples of 16.
typedef unsigned long size_t;
typedef unsigned char byte;
extern byte __heap_base;
static byte nothing;
static size_t top, end;
static const size_t page = 65536;
// How many bytes the memory may have.
static size_t most = (size_t)1 << 34;

// Before each block 16 bytes, of which the first 8 say the class. A class is a size: steps of 16 up to 1024, then four
// to a doubling. A freed block waits in the list of its class.
enum { SMALL = 64, CLASSES = SMALL + 4 * 40 };
static size_t waiting[CLASSES + 1];

static size_t class_of(size_t n) {
    if (n <= 1024) return (n + 15) / 16;
    size_t log = 63 - __builtin_clzl(n - 1);
    return SMALL + (log - 10) * 4 + (((n - 1) >> (log - 2)) & 3) + 1;
}

static size_t size_of_class(size_t c) {
    if (c <= SMALL) return c * 16;
    size_t log = (c - SMALL - 1) / 4 + 10, quarter = (c - SMALL - 1) % 4;
    return ((size_t)1 << log) + ((quarter + 1) << (log - 2));
}

// Says how many bytes the memory may have from now on.
void page_limit(size_t n) { most = n; }

// Grows the memory by this many pages, if the limit and the machine allow it.
static int grow(size_t pages) {
    if (end + pages * page > most || __builtin_wasm_memory_grow(0, pages) == (size_t)-1) return 0;
    end += pages * page;
    return 1;
}

void *page_take(size_t n) {
    if (n > most) return 0;
    size_t c = class_of(n ? n : 1), at = waiting[c];
    if (at) {
        waiting[c] = *(size_t *)at;
        return (void *)at;
    }
    size_t whole = size_of_class(c) + 16;
    if (!top) top = ((size_t)&__heap_base + 15) & ~(size_t)15, end = __builtin_wasm_memory_size(0) * page;
    if (top + whole > end) {
        size_t more = (top + whole - end + page - 1) / page;
        // 16 MB at a time, or what is needed where there isn't so much.
        if (!(more < 256 && grow(256)) && !grow(more)) return 0;
    }
    at = top + 16;
    top += whole;
    *(size_t *)(at - 16) = c;
    return (void *)at;
}

void page_give(void *p) {
    size_t c = *(size_t *)((size_t)p - 16);
    *(size_t *)p = waiting[c];
    waiting[c] = (size_t)p;
}

struct tried { byte ok; void *p; };
static struct tried told(void *p) { return (struct tried){p != 0, p ? p : &nothing}; }

struct tried rattle_alloc(size_t n, size_t a) { return told(page_take(n ? n : a)); }

struct tried rattle_realloc(void *p, size_t kept, size_t n, size_t a) {
    size_t want = n ? n : a, has = size_of_class(*(size_t *)((size_t)p - 16));
    if (want <= has && want * 4 >= has) return told(p);
    void *q = page_take(want);
    if (!q) return told(want <= has ? p : 0);
    __builtin_memcpy(q, p, kept < want ? kept : want);
    page_give(p);
    return told(q);
}

void rattle_dealloc(void *p) { page_give(p); }

/* The heap of the module: the three functions by which a `Global` asks for memory, and two for the page's buffers.
 * Nothing proves this file; what it owes is in the kit's UNSAFE.md, "An export that allocates". A block has a size that
 * is a power of two, and 16 bytes in front that say which; free blocks of a size are in a list. All are aligned to 16.
 * The memory grows by need. */
typedef unsigned long size_t;
typedef unsigned char u8;

#define PAGE 65536ul
#define SIZES 40
#define MOST (1ul << 30)

struct tried { size_t ok; void *p; };
struct front { size_t size; struct front *next; };

extern u8 __heap_base;
static struct front *free_of[SIZES];
static u8 *unused, *end;

static size_t size_of(size_t n) {
    size_t s = 5;
    while ((1ul << s) < n) s++;
    return s;
}

static void *fresh(size_t n) {
    if (!unused) {
        unused = (u8 *)(((size_t)&__heap_base + 15) & ~15ul);
        end = (u8 *)(__builtin_wasm_memory_size(0) * PAGE);
    }
    size_t left = (size_t)(end - unused);
    if (left < n) {
        size_t pages = (n - left + PAGE - 1) / PAGE;
        if (__builtin_wasm_memory_grow(0, pages) == (size_t)-1) return 0;
        end += pages * PAGE;
    }
    void *p = unused;
    unused += n;
    return p;
}

void *room(size_t n) {
    if (n > MOST) return 0;
    size_t s = size_of(n + sizeof(struct front));
    struct front *f = free_of[s];
    if (f)
        free_of[s] = f->next;
    else
        f = fresh(1ul << s);
    if (!f) return 0;
    f->size = s;
    return f + 1;
}

void give_back(void *p) {
    struct front *f = (struct front *)p - 1;
    f->next = free_of[f->size];
    free_of[f->size] = f;
}

struct tried rattle_alloc(size_t n, size_t align) {
    (void)align; /* a divisor of 16 */
    void *p = room(n);
    return (struct tried){p != 0, p};
}

struct tried rattle_realloc(void *p, size_t kept, size_t n, size_t align) {
    (void)align;
    struct front *f = (struct front *)p - 1;
    if (n + sizeof(struct front) <= 1ul << f->size) return (struct tried){1, p};
    void *q = room(n);
    if (!q) return (struct tried){0, p};
    __builtin_memcpy(q, p, kept < n ? kept : n);
    give_back(p);
    return (struct tried){1, q};
}

void rattle_dealloc(void *p) { give_back(p); }

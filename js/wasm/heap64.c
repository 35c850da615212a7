/* Heap of a WebAssembly module, in its own growing memory.
 *
 * rattle_alloc, rattle_realloc and rattle_dealloc take the place of the functions over `malloc` that a C program links. The sizes
 * are 16 << c bytes, and each size has a list of free blocks. A block is never split or joined, and memory is never given back.
 * host_allocate and host_free are exports, for the JavaScript that calls the module. */
#define HEADER 16
#define PAGE 65536ul
#define LARGEST (1ul << 40)

typedef unsigned long size_t;
typedef unsigned char byte;

/* Result of an allocation. `at` is never null. */
struct allocation {
    _Bool ok;
    void *at;
};

struct header {
    size_t size_class;
    struct header *next;
};

extern byte __heap_base;

static struct header *free_blocks[48];
static size_t top; /* end of the blocks, or 0 before the first one */
static size_t end; /* end of the memory */
static byte nothing[16] __attribute__((aligned(16)));

/* Returns the least c for which length <= 16 << c. */
static unsigned size_class_of(size_t length) {
    unsigned c = 0;
    while ((16ul << c) < length) c++;
    return c;
}

/* Grows the memory so that `length` bytes fit behind `top`. It grows by a quarter at least, if it can. */
static _Bool reserve(size_t length) {
    if (!top) {
        top = ((size_t)&__heap_base + 15) & ~15ul;
        end = __builtin_wasm_memory_size(0) * PAGE;
    }
    if (top + length <= end) return 1;
    size_t wanted = (top + length - end + PAGE - 1) / PAGE, quarter = end / PAGE / 4;
    size_t pages = quarter > wanted ? quarter : wanted;
    if (__builtin_wasm_memory_grow(0, pages) == ~0ul) {
        pages = wanted;
        if (__builtin_wasm_memory_grow(0, pages) == ~0ul) return 0;
    }
    end += pages * PAGE;
    return 1;
}

static void *take(size_t length) {
    if (length > LARGEST) return 0;
    unsigned c = size_class_of(length);
    struct header *block = free_blocks[c];
    if (block) {
        free_blocks[c] = block->next;
    } else {
        size_t whole = HEADER + (16ul << c);
        if (!reserve(whole)) return 0;
        block = (struct header *)top;
        top += whole;
        block->size_class = c;
    }
    return (byte *)block + HEADER;
}

static struct header *header_of(void *at) { return (struct header *)((byte *)at - HEADER); }

static void give_back(void *at) {
    struct header *block = header_of(at);
    block->next = free_blocks[block->size_class];
    free_blocks[block->size_class] = block;
}

struct allocation rattle_alloc(size_t length, size_t alignment) {
    (void)alignment; /* at most 16, which each block has */
    void *at = take(length);
    return (struct allocation){at != 0, at ? at : nothing};
}

struct allocation rattle_realloc(void *at, size_t kept, size_t length, size_t alignment) {
    (void)alignment;
    if (length <= 16ul << header_of(at)->size_class) return (struct allocation){1, at};
    void *moved = take(length);
    if (!moved) return (struct allocation){0, nothing};
    __builtin_memcpy(moved, at, kept);
    give_back(at);
    return (struct allocation){1, moved};
}

void rattle_dealloc(void *at) { give_back(at); }

/* Returns null if there is no memory. */
void *host_allocate(size_t length) { return take(length); }

void host_free(void *at) { give_back(at); }

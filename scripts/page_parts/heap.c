/* The heap of the page's module, in its own memory: what the kit's three calls ask for, and what the page
 * calls for its texts. A block has a size of 2 to the power of its class, and before it its class; a block
 * that is given back waits in the list of its class. */
typedef unsigned long word;

struct got {
    word is_there;
    void *at;
};

enum { PAGE = 65536, HEAD = 16, CLASSES = 48, SMALLEST = 4 };

/* At most 1 GiB is handed out. */
static const word LIMIT = 1ul << 30;

extern unsigned char __heap_base;
static word top, end;
static void *waiting[CLASSES];

static word class_for(word size) {
    return size <= 16 ? SMALLEST : 64 - (word)__builtin_clzl(size - 1);
}

static word *class_of(void *block) {
    return (word *)((word)block - HEAD);
}

/* Whether the memory reaches so far, grown where it must. */
static int reaches(word wanted) {
    if (wanted > LIMIT) return 0;
    if (wanted <= end) return 1;
    word pages = (wanted - end + PAGE - 1) / PAGE;
    if (__builtin_wasm_memory_grow(0, pages < 16 ? 16 : pages) == ~0ul) return 0;
    end = __builtin_wasm_memory_size(0) * PAGE;
    return 1;
}

static void *get(word size) {
    if (size > LIMIT) return 0;
    word class = class_for(size);
    void *block = waiting[class];
    if (block) {
        waiting[class] = *(void **)block;
        return block;
    }
    if (!top) {
        top = ((word)&__heap_base + 31) & ~15ul;
        end = __builtin_wasm_memory_size(0) * PAGE;
    }
    if (!reaches(top + HEAD + (1ul << class))) return 0;
    block = (void *)(top + HEAD);
    *class_of(block) = class;
    top += HEAD + (1ul << class);
    return block;
}

static void put(void *block) {
    word class = *class_of(block);
    *(void **)block = waiting[class];
    waiting[class] = block;
}

struct got rattle_alloc(word size, word align) {
    void *block = get(size ? size : align);
    return (struct got){block != 0, block ? block : (void *)align};
}

struct got rattle_realloc(void *old, word kept, word size, word align) {
    if (size <= 1ul << *class_of(old)) return (struct got){1, old};
    void *block = get(size);
    if (!block) return (struct got){0, (void *)align};
    __builtin_memcpy(block, old, kept);
    put(old);
    return (struct got){1, block};
}

void rattle_dealloc(void *block) {
    if (block) put(block);
}

__attribute__((export_name("room"))) void *room(word size) {
    return get(size ? size : 1);
}

__attribute__((export_name("free_room"))) void free_room(void *block) {
    put(block);
}

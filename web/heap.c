// The heap of the page: blocks whose sizes are powers of two, and for each size a list of the free blocks. The module calls the first three
// functions where proved code takes memory and gives it back; the page calls the last two.
typedef unsigned long u64;

// What the module is answered: whether there was memory, and where.
typedef struct {
    u64 ok;
    void *at;
} Tried;

typedef struct Free {
    struct Free *next;
} Free;

// In front of each block, of 16 bytes, so that blocks are aligned to 16.
typedef struct {
    u64 kind, unused;
} Head;

extern unsigned char __heap_base[];
static Free *lists[64];
static u64 next, end;

// The kind of a block for so many bytes: it has room for 2 to the kind.
static u64 kind_of(u64 bytes) {
    u64 kind = 4;
    while (((u64)1 << kind) < bytes) kind++;
    return kind;
}

// So many bytes after all that were taken before, or null.
static void *more(u64 bytes) {
    if (!next) {
        next = ((u64)__heap_base + 15) & ~(u64)15;
        end = __builtin_wasm_memory_size(0) << 16;
    }
    if (bytes > end - next) {
        u64 pages = (bytes - (end - next) + 65535) >> 16;
        if (pages < 16) pages = 16;
        if (__builtin_wasm_memory_grow(0, pages) == (u64)-1) return 0;
        end += pages << 16;
    }
    void *at = (void *)next;
    next += bytes;
    return at;
}

Tried rattle_alloc(u64 bytes, u64 align) {
    if (align > 16 || bytes > (u64)1 << 40) return (Tried){0, 0};
    u64 kind = kind_of(bytes);
    Free *block = lists[kind];
    if (block) {
        lists[kind] = block->next;
        return (Tried){1, block};
    }
    Head *head = more(sizeof(Head) + ((u64)1 << kind));
    if (!head) return (Tried){0, 0};
    head->kind = kind;
    return (Tried){1, head + 1};
}

void rattle_dealloc(void *block) {
    Head *head = (Head *)block - 1;
    ((Free *)block)->next = lists[head->kind];
    lists[head->kind] = block;
}

Tried rattle_realloc(void *block, u64 kept, u64 bytes, u64 align) {
    if (align <= 16 && bytes <= (u64)1 << ((Head *)block - 1)->kind) return (Tried){1, block};
    Tried made = rattle_alloc(bytes, align);
    if (made.ok) {
        __builtin_memcpy(made.at, block, kept);
        rattle_dealloc(block);
    }
    return made;
}

// Room for what the page hands in, or null where there is no memory; the page gives back this room, and the texts of a reply.
__attribute__((export_name("page_room"))) void *page_room(u64 bytes) { return rattle_alloc(bytes, 16).at; }
__attribute__((export_name("page_free"))) void page_free(void *block) { rattle_dealloc(block); }

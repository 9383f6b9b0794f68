/* heap.c: the heap of the page's WebAssembly module, and the few functions that the compiler calls by name.
 *
 * The proved library asks for memory by rattle_alloc, rattle_realloc and rattle_dealloc. A block has a size of one of 256
 * kinds: four for each power of two. Free blocks of a kind are in a list. If the list is empty, the block is cut off the end
 * of the memory, which grows. Each block is aligned to 16 bytes, and 16 bytes before it say its kind. */

typedef unsigned long word; /* 64 bits */

struct tried { word ok, at; };

enum { HEADER = 16, KINDS = 256, PAGE = 65536 };

extern unsigned char __heap_base;

static word free_blocks[KINDS]; /* the first free block of each kind; the next one is named in the block */
static word end_of_blocks;      /* the first byte that was never in a block */
static word end_of_memory;

/* The size of a kind: 16, 20, 24, 28, 32, 40 .., each rounded up to 16 bytes. */
static word size_of(word kind) { return (((4 + kind % 4) << (kind / 4 + 2)) + 15) & ~15UL; }

/* The least kind with that size. */
static word kind_of(word size) {
    if (size <= 16) return 0;
    word power = 63 - __builtin_clzl(size - 1);
    return (power - 4) * 4 + (((size - 1) >> (power - 2)) & 3) + 1;
}

/* Has memory up to that byte, and a sixteenth more, if there is as much. */
static int has_memory(word end) {
    if (end_of_memory == 0) end_of_memory = __builtin_wasm_memory_size(0) * PAGE;
    if (end <= end_of_memory) return 1;
    word pages = (end - end_of_memory + PAGE - 1) / PAGE, more = end_of_memory / PAGE / 16;
    if (more < pages || __builtin_wasm_memory_grow(0, more) == -1UL) {
        if (__builtin_wasm_memory_grow(0, pages) == -1UL) return 0;
        more = pages;
    }
    end_of_memory += more * PAGE;
    return 1;
}

/* A block of that many bytes, or 0 if there is not enough memory. */
__attribute__((export_name("heap_take"))) word heap_take(word size) {
    if (size >= 1UL << 40) return 0;
    word kind = kind_of(size), at = free_blocks[kind];
    if (at) {
        free_blocks[kind] = *(word *)at;
        return at;
    }
    if (end_of_blocks == 0) end_of_blocks = ((word)&__heap_base + 15) & ~15UL;
    at = end_of_blocks + HEADER;
    if (!has_memory(at + size_of(kind))) return 0;
    *(word *)(at - HEADER) = kind;
    end_of_blocks = at + size_of(kind);
    return at;
}

__attribute__((export_name("heap_give"))) void heap_give(word at) {
    word kind = *(word *)(at - HEADER);
    *(word *)at = free_blocks[kind];
    free_blocks[kind] = at;
}

struct tried rattle_alloc(word size, word align) {
    (void)align; /* at most 16 */
    word at = heap_take(size);
    return (struct tried){at != 0, at ? at : 16};
}

struct tried rattle_realloc(word old, word kept, word size, word align) {
    (void)align;
    word room = size_of(*(word *)(old - HEADER));
    if (size <= room && size > room / 2) return (struct tried){1, old};
    word at = heap_take(size);
    if (!at) return (struct tried){0, old};
    __builtin_memcpy((void *)at, (void *)old, kept < size ? kept : size);
    heap_give(old);
    return (struct tried){1, at};
}

void rattle_dealloc(word at) { heap_give(at); }

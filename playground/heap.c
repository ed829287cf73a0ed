// What the planner's module takes from C in a page: a heap over the memory of a wasm64 module, a product of 128 bits
// that its compiler calls, and what it asks first. For one thread.
typedef unsigned char byte;
typedef unsigned long word; // 64 bits

// A block begins with 16 bytes that hold its class; a block of class c has 16 << c bytes after them.
enum { HEAD = 16, CLASSES = 33, PAGE = 65536 };

// What rattle_alloc and rattle_realloc answer: whether there is a block, and where it begins.
typedef struct {
    word is_there;
    byte *block;
} Tried;

extern byte __heap_base;
static word end_of_blocks;
static byte *free_blocks[CLASSES]; // by class, each a list through the first word of its blocks

static word size_of(word class) {
    return (word)16 << class;
}

static word class_of(word size) {
    word class = 0;
    while (class < CLASSES && size_of(class) < size) class++;
    return class;
}

static word *head_of(byte *block) {
    return (word *)(block - HEAD);
}

// Whether the memory reaches this end, after it has grown where it has to: by a quarter, or by what is needed.
static int reaches(word end) {
    word pages = __builtin_wasm_memory_size(0);
    if (end <= pages * PAGE) return 1;
    word needed = (end - pages * PAGE + PAGE - 1) / PAGE;
    word more = pages / 4 > needed ? pages / 4 : needed;
    return __builtin_wasm_memory_grow(0, more) != (word)-1 || __builtin_wasm_memory_grow(0, needed) != (word)-1;
}

// A block of a class, or null.
static byte *block_of(word class) {
    if (class == CLASSES) return 0;
    byte *block = free_blocks[class];
    if (block) {
        free_blocks[class] = *(byte **)block;
        return block;
    }
    if (!end_of_blocks) end_of_blocks = ((word)&__heap_base + 15) / 16 * 16;
    word end = end_of_blocks + HEAD + size_of(class);
    if (!reaches(end)) return 0;
    block = (byte *)end_of_blocks + HEAD;
    *head_of(block) = class;
    end_of_blocks = end;
    return block;
}

void rattle_dealloc(byte *block) {
    word class = *head_of(block);
    *(byte **)block = free_blocks[class];
    free_blocks[class] = block;
}

Tried rattle_alloc(word size, word align) {
    (void)align; // it divides 16
    byte *block = block_of(class_of(size));
    return (Tried){block != 0, block};
}

// The block stays where it is as long as it is large enough and not four times too large.
Tried rattle_realloc(byte *block, word kept, word size, word align) {
    word class = *head_of(block);
    if (size <= size_of(class) && size_of(class) / 4 <= size + 16) return (Tried){1, block};
    Tried tried = rattle_alloc(size, align);
    if (tried.is_there) {
        __builtin_memcpy(tried.block, block, kept < size ? kept : size);
        rattle_dealloc(block);
    }
    return tried;
}

// The product of two integers of 128 bits, which wasm64 has no instruction for.
unsigned __int128 __multi3(unsigned __int128 a, unsigned __int128 b) {
    word low_a = (word)a, low_b = (word)b;
    word a0 = (unsigned)low_a, a1 = low_a >> 32, b0 = (unsigned)low_b, b1 = low_b >> 32;
    word low = a0 * b0;
    word first = a1 * b0 + (low >> 32);
    word second = a0 * b1 + (unsigned)first;
    word high = a1 * b1 + (first >> 32) + (second >> 32);
    high += (word)(a >> 64) * low_b + low_a * (word)(b >> 64);
    return (unsigned __int128)high << 64 | (second << 32 | (unsigned)low);
}

// Before anything else the program asks its processor for what it was compiled for, and ends where that lacks it. Here it is
// compiled for another one, so it is told that all is there.
const byte *__x86_get_cpuid_feature_leaf(unsigned leaf);
const byte *__x86_get_cpuid_feature_leaf(unsigned leaf) {
    static const word features[4] = {-1UL, -1UL, -1UL, -1UL};
    (void)leaf;
    return (const byte *)features;
}

// By this name of the write it would say so.
extern long write(int descriptor, const void *from, word length);
long __write(int descriptor, const void *from, word length) {
    return write(descriptor, from, length);
}

// The memory of shex.wasm: malloc, realloc and free over memory that only grows, by size classes; and what clang calls by name.
//
// Nothing proves this file. Blocks are aligned to 16 bytes, with a header of 16 that has their class. Calls come from one thread.
// The module has an instance for each call, so what is never given back is given back with it.

typedef unsigned long u64;
typedef unsigned char u8;
typedef unsigned __int128 u128;
typedef __int128 i128;

enum { HEADER = 16, SMALL = 8, CLASSES = 256, PAGE = 65536 };
static const u64 GREATEST = 1UL << 40;
static const u64 GROWTH = 1UL << 20;

extern u8 __heap_base;
// Where the next new block begins, and where the memory ends; 0 before the first.
static u64 top, end;
// The first free block of each class, whose first word is the next one.
static u64 freed[CLASSES];

// The bytes of a block: 16, 32 .. 128, then four classes to each power of two.
static u64 size_of(unsigned class) {
    return class < SMALL ? 16UL * (class + 1) : (u64)(4 + (class & 3)) << (3 + (class >> 2));
}

// The least class whose blocks have so many bytes.
static unsigned class_of(u64 bytes) {
    if (bytes <= 16 * (SMALL - 1)) return bytes ? (unsigned)((bytes - 1) >> 4) : 0;
    unsigned log = 63 - (unsigned)__builtin_clzl(bytes - 1);
    unsigned class = log > 5 ? (log - 5) * 4 : SMALL;
    while (size_of(class) < bytes) class++;
    while (class > SMALL && size_of(class - 1) >= bytes) class--;
    return class;
}

// Has the memory reach so many bytes beyond its end, or answers 0.
static int grow(u64 wanted) {
    u64 more = end >> 3;
    if (more < GROWTH) more = GROWTH;
    if (more < wanted) more = wanted;
    u64 pages = (more + PAGE - 1) / PAGE;
    if (__builtin_wasm_memory_grow(0, pages) == -1UL) {
        pages = (wanted + PAGE - 1) / PAGE;
        if (__builtin_wasm_memory_grow(0, pages) == -1UL) return 0;
    }
    end += pages * PAGE;
    return 1;
}

void *malloc(u64 bytes) {
    if (bytes > GREATEST) return 0;
    unsigned class = class_of(bytes);
    u64 block = freed[class];
    if (block) {
        freed[class] = *(u64 *)block;
        return (void *)block;
    }
    if (!top) {
        top = ((u64)&__heap_base + 15) & ~15UL;
        end = __builtin_wasm_memory_size(0) * PAGE;
    }
    u64 whole = size_of(class) + HEADER;
    if (whole > end - top && !grow(whole - (end - top))) return 0;
    block = top + HEADER;
    top += whole;
    *(u64 *)(block - HEADER) = class;
    return (void *)block;
}

void free(void *block) {
    if (!block) return;
    u64 class = *(u64 *)((u64)block - HEADER);
    *(u64 *)block = freed[class];
    freed[class] = (u64)block;
}

void *realloc(void *block, u64 bytes) {
    if (!block) return malloc(bytes);
    u64 had = size_of((unsigned)*(u64 *)((u64)block - HEADER));
    if (bytes <= had && (bytes > had / 2 || had <= 64)) return block;
    // The last block grows where it stands.
    if ((u64)block + had == top && bytes > had && bytes <= GREATEST) {
        unsigned class = class_of(bytes);
        if ((u64)block + size_of(class) <= end) {
            top = (u64)block + size_of(class);
            *(u64 *)((u64)block - HEADER) = class;
            return block;
        }
    }
    void *other = malloc(bytes);
    if (!other) return 0;
    __builtin_memcpy(other, block, bytes < had ? bytes : had);
    free(block);
    return other;
}

// Memory for what the page hands over, or 0.
void *host_alloc(u64 bytes) { return malloc(bytes ? bytes : 1); }

// What the calls of calls.ll ask for: a block of so many bytes, or 0; for no bytes of an alignment that alignment, as a place.
static u64 none[2];
u64 heap_tried(u64 bytes, u64 alignment) { return (u64)malloc(bytes ? bytes : alignment); }
u64 heap_retried(u64 block, u64 bytes, u64 alignment) { return (u64)realloc((void *)block, bytes ? bytes : alignment); }
u64 heap_none(void) { return (u64)none; }

int memcmp(const void *first, const void *second, u64 count) {
    const u8 *a = first, *b = second;
    for (u64 i = 0; i < count; i++) {
        if (a[i] != b[i]) return a[i] < b[i] ? -1 : 1;
    }
    return 0;
}

int bcmp(const void *first, const void *second, u64 count) { return memcmp(first, second, count); }

__attribute__((weak)) void *memcpy(void *to, const void *from, u64 count) {
    __builtin_memmove(to, from, count);
    return to;
}

// Products, quotients and shifts of numbers of 128 bits, which clang calls.
u128 __multi3(u128 a, u128 b) {
    u64 a_low = (u64)a, a_high = (u64)(a >> 64), b_low = (u64)b, b_high = (u64)(b >> 64);
    u64 a0 = a_low & 0xffffffff, a1 = a_low >> 32, b0 = b_low & 0xffffffff, b1 = b_low >> 32;
    u64 p00 = a0 * b0, p01 = a0 * b1, p10 = a1 * b0, p11 = a1 * b1;
    u64 middle = (p00 >> 32) + (p01 & 0xffffffff) + (p10 & 0xffffffff);
    u64 low = (p00 & 0xffffffff) | (middle << 32);
    u64 high = p11 + (p01 >> 32) + (p10 >> 32) + (middle >> 32) + a_low * b_high + a_high * b_low;
    return ((u128)high << 64) | low;
}

static u128 divide(u128 number, u128 divisor, u128 *rest) {
    if (!(number >> 64) && !(divisor >> 64)) {
        *rest = (u64)number % (u64)divisor;
        return (u64)number / (u64)divisor;
    }
    u128 quotient = 0, left = 0;
    for (int i = 127; i >= 0; i--) {
        left = (left << 1) | ((number >> i) & 1);
        quotient <<= 1;
        if (left >= divisor) {
            left -= divisor;
            quotient |= 1;
        }
    }
    *rest = left;
    return quotient;
}

u128 __udivti3(u128 a, u128 b) {
    u128 rest;
    return divide(a, b, &rest);
}

u128 __umodti3(u128 a, u128 b) {
    u128 rest;
    divide(a, b, &rest);
    return rest;
}

i128 __divti3(i128 a, i128 b) {
    u128 rest, quotient = divide(a < 0 ? -(u128)a : (u128)a, b < 0 ? -(u128)b : (u128)b, &rest);
    return (a < 0) != (b < 0) ? -(i128)quotient : (i128)quotient;
}

i128 __modti3(i128 a, i128 b) {
    u128 rest;
    divide(a < 0 ? -(u128)a : (u128)a, b < 0 ? -(u128)b : (u128)b, &rest);
    return a < 0 ? -(i128)rest : (i128)rest;
}

typedef union {
    u128 all;
    struct {
        u64 low, high;
    } half;
} halves;

u128 __ashlti3(u128 a, int n) {
    halves x = {.all = a}, y;
    if (n & 64) {
        y.half.high = x.half.low << (n & 63);
        y.half.low = 0;
    } else {
        y.half.high = n ? x.half.high << n | x.half.low >> (64 - n) : x.half.high;
        y.half.low = x.half.low << n;
    }
    return y.all;
}

u128 __lshrti3(u128 a, int n) {
    halves x = {.all = a}, y;
    if (n & 64) {
        y.half.low = x.half.high >> (n & 63);
        y.half.high = 0;
    } else {
        y.half.low = n ? x.half.low >> n | x.half.high << (64 - n) : x.half.low;
        y.half.high = x.half.high >> n;
    }
    return y.all;
}

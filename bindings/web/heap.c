/* What the library calls of C, for WebAssembly: an allocator, the four functions over bytes, and a
 * product of 128 bits.
 *
 * heap_begin says where the heap begins, and forgets each block that was allocated before. A host
 * that keeps nothing between calls places the buffers of a call from __heap_base up to there. One
 * that keeps a document begins the heap once, and takes the buffers from it by heap_take. Blocks
 * come in sizes of powers of two, and a freed block is used again for the next of its size.
 *
 * The module is compiled for a memory of 64 bits, and then lowered to one of 32. */

typedef __SIZE_TYPE__ size_t;
typedef unsigned char byte;
typedef unsigned long long word;
typedef byte bytes16 __attribute__((vector_size(16), aligned(1)));

#define PAGE 65536ul
#define SMALLEST 5
#define SIZES 64

/* What precedes a block. While the block is free, `next` is the next free one of its size. */
typedef struct header {
    size_t size; /* the block and its header take 1 << size bytes */
    struct header *next;
} header;

/* An allocated block, if there was memory for it. */
typedef struct allocated {
    size_t done;
    void *block;
} allocated;

static byte *heap_end;
static header *free_blocks[SIZES];

/* Whether the memory reaches up to an address, or could be grown to do so. */
static int reach(size_t end)
{
    size_t pages = __builtin_wasm_memory_size(0);
    size_t wanted = end / PAGE + (end % PAGE != 0);
    if (wanted > pages)
        __builtin_wasm_memory_grow(0, wanted - pages);
    /* What memory.grow returns where it refuses is another number after the lowering. */
    return wanted <= __builtin_wasm_memory_size(0);
}

/* Lets the heap begin at an address, with nothing in it. Returns whether the memory reaches that far. */
int heap_begin(size_t begin)
{
    heap_end = (byte *)((begin + 15) & ~15ul);
    for (size_t size = 0; size < SIZES; size++)
        free_blocks[size] = 0;
    return reach((size_t)heap_end);
}

/* The size of the block for some bytes: the power of two that has room for them and a header. */
static size_t size_for(size_t len)
{
    size_t size = SMALLEST;
    while (((size_t)1 << size) - sizeof(header) < len)
        size++;
    return size;
}

static void *block_of(header *at)
{
    return at + 1;
}

static header *header_of(void *block)
{
    return (header *)block - 1;
}

void rattle_dealloc(void *block);

static void *take(size_t len)
{
    if (len > (size_t)1 << 40)
        return 0;
    size_t size = size_for(len);
    header *at = free_blocks[size];
    if (at) {
        free_blocks[size] = at->next;
        return block_of(at);
    }
    at = (header *)heap_end;
    if (!reach((size_t)heap_end + ((size_t)1 << size)))
        return 0;
    heap_end += (size_t)1 << size;
    at->size = size;
    return block_of(at);
}

/* A block of some bytes for the host, or NULL where there is no memory. */
void *heap_take(size_t len)
{
    return take(len);
}

/* Takes back a block that heap_take returned. */
void heap_give(void *block)
{
    rattle_dealloc(block);
}

/* Blocks are aligned to 16 bytes, which is what the library asks for at most. */
allocated rattle_alloc(size_t len, size_t align)
{
    void *block = take(len ? len : align);
    return (allocated){block != 0, block};
}

void rattle_dealloc(void *block)
{
    header *at = header_of(block);
    at->next = free_blocks[at->size];
    free_blocks[at->size] = at;
}

/* The first `kept` bytes stay. Where there is no memory, the block is as it was. */
allocated rattle_realloc(void *block, size_t kept, size_t len, size_t align)
{
    void *larger = take(len ? len : align);
    if (!larger)
        return (allocated){0, block};
    __builtin_memcpy(larger, block, kept < len ? kept : len);
    rattle_dealloc(block);
    return (allocated){1, larger};
}

/* Short ones are the most: names and plain strings. */
void *memcpy(void *restrict to, const void *restrict from, size_t len)
{
    byte *t = to;
    const byte *f = from;
    while (len >= 16) {
        *(bytes16 *)t = *(const bytes16 *)f;
        t += 16, f += 16, len -= 16;
    }
    while (len--)
        *t++ = *f++;
    return to;
}

void *memmove(void *to, const void *from, size_t len)
{
    byte *t = to;
    const byte *f = from;
    if (t < f) {
        while (len--)
            *t++ = *f++;
    } else {
        while (len--)
            t[len] = f[len];
    }
    return to;
}

void *memset(void *to, int value, size_t len)
{
    for (byte *t = to; len; len--)
        *t++ = (byte)value;
    return to;
}

int memcmp(const void *left, const void *right, size_t len)
{
    const byte *l = left, *r = right;
    for (; len; len--, l++, r++) {
        if (*l != *r)
            return *l - *r;
    }
    return 0;
}

/* The product of two numbers of 128 bits, which clang calls where the machine has none. */
__int128 __multi3(__int128 left, __int128 right)
{
    word a = (word)left, b = (word)right;
    word a_low = a & 0xffffffffu, a_high = a >> 32;
    word b_low = b & 0xffffffffu, b_high = b >> 32;
    word low = a_low * b_low;
    word middle = a_high * b_low + (low >> 32);
    word other = a_low * b_high + (middle & 0xffffffffu);
    word high = a_high * b_high + (middle >> 32) + (other >> 32);
    high += a * (word)(right >> 64) + (word)(left >> 64) * b;
    return (__int128)(((unsigned __int128)high << 64) | (other << 32) | (low & 0xffffffffu));
}

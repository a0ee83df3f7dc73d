/* Memory by `subseg`: each block is a segment of its own, cut out of the heap, and the object stands at its end. The heap
   begins with two maps, a bit for each of its words: which words are in a block, and at which an object begins. So no
   block has a link to another one in it, and `free` knows what it may free. A block that was freed is handed out again
   only after the rest of the heap was, and cleared.

   With QUARANTINE it is held back first, in a third map, until more bytes than that are. Then every pointer to such a
   block, wherever the program has one, becomes a number: that of a key, by which `mm` knows why it is one. */

#include <setjmp.h>

extern number __mm_heap[];
#ifdef QUARANTINE
#define MAPS 3
static size_t held;
#else
#define MAPS 2
#endif
#define WORDS_A_BIT 64
/* Functions of their own, and loops that are not unrolled: the text is short rather than fast. */
#define FAR __attribute__((noinline))
static size_t next, used;
/* The bytes for which there was no room, the last time: `mm` tells of them where a null pointer is used. */
size_t __mm_refused;

static long log_in(const void *pointer)
{
    return bits_of(pointer) >> 54 & 63;
}

static size_t heap_words(void)
{
    return 1ul << log_in(__mm_heap) - 3;
}

/* The place of an object in the heap, in words; a great number if it is not there. */
static size_t place_in(const void *pointer)
{
    return (bits_of(pointer) & (1ul << 54) - 1) - (bits_of(__mm_heap) & (1ul << 54) - 1) >> 3;
}

static size_t map_words(void)
{
    size_t words = heap_words() / WORDS_A_BIT;
    return words ? words : 1;
}

static number mask_of(size_t at, size_t count)
{
    return (count < WORDS_A_BIT ? (1ul << count) - 1 : ~0ul) << at % WORDS_A_BIT;
}

static FAR int is_free(size_t at, size_t count)
{
    number mask = mask_of(at, count);
#pragma nounroll
    for (size_t word = at / WORDS_A_BIT; word <= (at + count - 1) / WORDS_A_BIT; word++)
        if (__mm_heap[word] & mask)
            return 0;
    return 1;
}

static FAR void change(size_t map, size_t at, size_t count)
{
    number mask = mask_of(at, count);
#pragma nounroll
    for (size_t word = at / WORDS_A_BIT; word <= (at + count - 1) / WORDS_A_BIT; word++)
        __mm_heap[map + word] ^= mask;
}

/* The first free words after those that were handed out last, a power of two of them, and at a multiple of it. */
static FAR size_t find(size_t count)
{
    size_t words = heap_words(), at = next + count - 1 & -count;
#pragma nounroll
    for (size_t seen = 0; seen <= words + count; seen += count, at += count) {
        if (at + count > words)
            at = 0;
        while (count < WORDS_A_BIT && at % WORDS_A_BIT == 0 && at < words && !~__mm_heap[at / WORDS_A_BIT])
            at += WORDS_A_BIT, seen += WORDS_A_BIT;
        if (at + count <= words && is_free(at, count))
            return at;
    }
    return words;
}

#ifdef QUARANTINE
extern void *const __mm_roots[];
void *__mm_stack(void);

/* Pointers to blocks that are held back become numbers, in words of memory. A pointer to the whole heap is our own. */
static FAR void sweep(void **words, size_t count)
{
    number none = 0, *maps = __mm_heap + 2 * map_words();
    size_t most = heap_words();
    __asm__("" : "+r"(none), "+r"(maps), "+r"(most));
#pragma nounroll
    for (void **at = words, **end = words + count; at < end; at++)
        if (__mm_op_isptr(*at)) {
            size_t place = place_in(*at);
            if (place < most && 8ul << log_in(*at) < 64 * most && maps[place / WORDS_A_BIT] >> place % WORDS_A_BIT & 1)
                *(number *)at = (bits_of(*at) | 7ul << 60) + none;
        }
}

/* The program has pointers in its stack, from here on, in its globals, in its blocks, and in the registers that a callee
   keeps. */
static FAR void let_go(void)
{
    jmp_buf kept;
    if (setjmp(kept))
        return;
    void **stack = __mm_stack(), *const *root;
    size_t length = 1ul << log_in(stack);
    sweep(stack, length - (bits_of(stack) & length - 1) >> 3);
    for (root = __mm_roots; *root; root++)
        sweep(*root, 1ul << log_in(*root) - 3);
    number *maps = __mm_heap + 2 * map_words();
    size_t last = (used + WORDS_A_BIT - 1) / WORDS_A_BIT;
#pragma nounroll
    for (size_t word = MAPS * map_words() / WORDS_A_BIT; word < last; word++)
        if (__mm_heap[word])
            sweep((void **)__mm_heap + word * WORDS_A_BIT, heap_words() < WORDS_A_BIT ? heap_words() : WORDS_A_BIT);
#pragma nounroll
    for (size_t word = 0; word < last; word++) {
        __mm_heap[word] ^= maps[word];
        maps[word] = 0;
    }
    held = 0;
    longjmp(kept, 1);
}
#endif

static FAR void *refuse(size_t size)
{
    __mm_refused = size;
    return 0;
}

void *malloc(size_t wanted)
{
    if (!next) {
        next = MAPS * map_words();
        if (next >= heap_words())
            return next = 0, refuse(wanted);
        change(0, 0, next);
    }
    if (wanted > heap_words() * 4)
        return refuse(wanted);
    size_t size = wanted ? wanted + 7 & -8ul : 8;
    long log = __mm_log_of(size);
    size_t count = 1ul << log - 3, at = find(count);
#ifdef QUARANTINE
    if (at == heap_words() && held)
        let_go(), at = find(count);
#endif
    if (at == heap_words())
        return refuse(wanted);
    number *block = __mm_op_subseg(__mm_op_leab(__mm_heap, at * 8), log);
#pragma nounroll
    for (size_t word = 0; at < used && word < count; word++)
        block[word] = 0;
    change(0, at, count);
    next = at + count;
    used = used < next ? next : used;
    char *found = (char *)block + ((1ul << log) - size);
    at = place_in(found);
    __mm_heap[map_words() + at / WORDS_A_BIT] |= 1ul << at % WORDS_A_BIT;
    return found;
}

/* What is no object of malloc, or was freed before, stops the program. */
void free(void *pointer)
{
    if (!pointer)
        return;
    size_t at = place_in(pointer), count = 1ul << log_in(pointer) - 3;
    number bit = 1ul << at % WORDS_A_BIT, *starts = &__mm_heap[map_words() + at / WORDS_A_BIT];
    if (at >= heap_words() || !(*starts & bit))
        __mm_op_trap(8);
    *starts ^= bit;
#ifdef QUARANTINE
    change(2 * map_words(), at & -count, count);
    held += 8 * count;
    if (held > QUARANTINE)
        let_go();
#else
    change(0, at & -count, count);
#endif
}

void *calloc(size_t count, size_t size)
{
    return size && count > ~0ul / size ? 0 : malloc(count * size);
}

void *realloc(void *pointer, size_t size)
{
    if (!pointer)
        return malloc(size);
    long log = log_in(pointer);
    size_t old = (1ul << log) - (bits_of(pointer) & (1ul << log) - 1);
    void *found = malloc(size);
    if (found) {
        memcpy(found, pointer, old < size ? old : size);
        free(pointer);
    }
    return found;
}

char *strdup(const char *text)
{
    size_t size = strlen(text) + 1;
    char *found = malloc(size);
    return found ? memcpy(found, text, size) : 0;
}

// The heap: blocks in size classes, four to each doubling.
//
// A fresh block is announced as a write of the thread that allocates it, and a block that is given back as a
// write of the thread that does so. So a use after free by another thread is a race, where nothing orders
// the two. A thread allocates from the blocks that it has freed itself, then from memory that nobody had,
// and only then from those that others have freed. Such a block comes with an edge from the thread that
// freed it, since otherwise the two writes would race: an edge of the kit's own, which may hide a race
// between these two threads. Blocks of a class are used again in the order in which they were freed.
#include <errno.h>
#include <stdlib.h>
#include <string.h>

#include "kit.h"

enum { ALIGNMENT = 16, CLASSES = 72, SMALL = 256, SMALL_CLASSES = SMALL / ALIGNMENT };

// Stands before each block.
struct block {
    uint32_t class;
    uint32_t state;
    union {
        uint64_t size;      // of one in use, as it was asked for
        struct block *next; // of a free one
    } of;
};

// States are words that are unlikely where no block is. A block that is aligned further stands within
// another, and `of.size` is how far.
enum { IN_USE = 0x75736564, FREED = 0x66726565, WITHIN = 0x77697468 };

struct queue {
    struct block *first;
    struct block *last;
    uint32_t owner; // the thread that freed what stands there, plus 1
};

static _Alignas(ALIGNMENT) uint8_t heap[GUEST_HEAP_BYTES];
static size_t used;
static struct queue queues[GUEST_STACKS + 1][CLASSES];
static struct guard changing;

static uint32_t class_of(size_t size)
{
    if (size <= SMALL) {
        return size == 0 ? 0 : (uint32_t)((size - 1) / ALIGNMENT);
    }
    uint32_t doubling = 63 - (uint32_t)__builtin_clzl(size - 1);
    uint32_t quarter = (uint32_t)((size - 1) >> (doubling - 2)) - 4;
    return SMALL_CLASSES + (doubling - 8) * 4 + quarter;
}

static size_t capacity_of(uint32_t class)
{
    if (class < SMALL_CLASSES) {
        return (class + 1) * ALIGNMENT;
    }
    uint32_t doubling = 8 + (class - SMALL_CLASSES) / 4;
    return (size_t)(5 + (class - SMALL_CLASSES) % 4) << (doubling - 2);
}

static struct block *first_of(struct queue *queue)
{
    struct block *block = queue->first;
    if (block != NULL) {
        queue->first = block->of.next;
    }
    return block;
}

static struct block *fresh(uint32_t class)
{
    size_t whole = sizeof(struct block) + capacity_of(class);
    if (whole > sizeof heap - used) {
        return NULL;
    }
    struct block *block = (struct block *)(heap + used);
    used += whole;
    block->class = class;
    return block;
}

// A block of at least the class, from any thread, and the queue that it stood in.
static struct block *from_others(uint32_t class, struct queue **queue)
{
    for (; class < CLASSES; class += 1) {
        for (uint32_t slot = 0; slot <= GUEST_STACKS; slot += 1) {
            *queue = &queues[slot][class];
            struct block *block = first_of(*queue);
            if (block != NULL) {
                return block;
            }
        }
    }
    return NULL;
}

// A block for so many bytes, or NULL; `was_used` tells whether its bytes may be other than zero.
static struct block *take(size_t size, int *was_used)
{
    if (size > sizeof heap) {
        return NULL;
    }
    struct thread *me = __kit_thread_self();
    uint32_t class = class_of(size);
    guard_take(&changing);
    struct queue *queue = &queues[me->slot][class];
    struct block *block = first_of(queue);
    *was_used = 1;
    if (block == NULL) {
        block = fresh(class);
        *was_used = block == NULL;
        queue = NULL;
    }
    if (block == NULL) {
        block = from_others(class, &queue);
    }
    // A thread's queue may be that of another before it which had the same stack.
    void *edge = block != NULL && queue != NULL && queue->owner != me->number + 1 ? queue : NULL;
    if (block != NULL) {
        block->state = IN_USE;
        block->of.size = size;
    }
    guard_give(&changing);
    if (edge != NULL) {
        __tsan_acquire(edge);
    }
    return block;
}

static _Noreturn void end_wrongly(const char *text)
{
    __kit_put_text(text);
    abort();
}

// The block of a pointer that the heap gave. Ends the run where there is none.
static struct block *block_of(void *memory)
{
    struct block *block = (struct block *)memory - 1;
    if ((uint8_t *)block < heap || (uint8_t *)memory >= heap + used ||
        (uintptr_t)memory % ALIGNMENT != 0) {
        end_wrongly("free: not a block of the heap\n");
    }
    if (block->state == WITHIN) {
        block = (struct block *)((uint8_t *)block - block->of.size);
    }
    if (block->state != IN_USE) {
        end_wrongly(block->state == FREED ? "free: freed before\n" : "free: not a block of the heap\n");
    }
    return block;
}

// The end of a block that is given back is told of by a release at its queue.
static void give(struct block *block)
{
    struct thread *me = __kit_thread_self();
    struct queue *queue = &queues[me->slot][block->class];
    __tsan_release(queue);
    guard_take(&changing);
    block->state = FREED;
    block->of.next = NULL;
    if (queue->first == NULL) {
        queue->first = block;
    } else {
        queue->last->of.next = block;
    }
    queue->last = block;
    queue->owner = me->number + 1;
    guard_give(&changing);
}

static size_t size_of(struct block *block, void *memory)
{
    return block->of.size - (size_t)((uint8_t *)memory - (uint8_t *)(block + 1));
}

static void copy(uint8_t *to, const uint8_t *from, size_t size)
{
    for (size_t i = 0; i < size; i += 1) {
        to[i] = from[i];
    }
}

static void clear(uint64_t *words, size_t size)
{
    for (size_t i = 0; i < (size + 7) / 8; i += 1) {
        words[i] = 0;
    }
}

// Writes are announced from within the function that a program calls, so that its name is the frame's.
ALWAYS_INLINE void announce_write(void *memory, size_t size)
{
    for (size_t done = 0; done < size; done += 65536) {
        __tsan_write_range((uint8_t *)memory + done, size - done < 65536 ? size - done : 65536);
    }
}

ALWAYS_INLINE void *allocate(size_t size, int is_cleared)
{
    int was_used;
    struct block *block = take(size, &was_used);
    if (block == NULL) {
        errno = ENOMEM;
        return NULL;
    }
    if (is_cleared && was_used) {
        clear((uint64_t *)(block + 1), size);
    }
    announce_write(block + 1, size);
    return block + 1;
}

ALWAYS_INLINE void release(void *memory)
{
    struct block *block = block_of(memory);
    announce_write(memory, size_of(block, memory));
    give(block);
}

// `alignment` is a power of two.
ALWAYS_INLINE void *allocate_aligned(size_t alignment, size_t size)
{
    int was_used;
    if (alignment <= ALIGNMENT) {
        return allocate(size, 0);
    }
    struct block *block = size <= sizeof heap && alignment <= sizeof heap
                              ? take(size + alignment, &was_used)
                              : NULL;
    if (block == NULL) {
        errno = ENOMEM;
        return NULL;
    }
    uintptr_t first = (uintptr_t)(block + 1);
    uintptr_t memory = (first + alignment - 1) & ~(alignment - 1);
    block->of.size = size + (memory - first);
    if (memory != first) {
        struct block *within = (struct block *)memory - 1;
        within->state = WITHIN;
        within->of.size = memory - first;
    }
    announce_write((void *)memory, size);
    return (void *)memory;
}

void *malloc(size_t size)
{
    ENTER();
    void *memory = allocate(size, 0);
    LEAVE();
    return memory;
}

void free(void *memory)
{
    ENTER();
    if (memory != NULL) {
        release(memory);
    }
    LEAVE();
}

void *calloc(size_t count, size_t size)
{
    size_t whole;
    ENTER();
    void *memory = NULL;
    if (__builtin_mul_overflow(count, size, &whole)) {
        errno = ENOMEM;
    } else {
        memory = allocate(whole, 1);
    }
    LEAVE();
    return memory;
}

// Always another block, so that a pointer to the former one is one to freed memory.
void *realloc(void *memory, size_t size)
{
    ENTER();
    void *other = allocate(size, 0);
    if (memory != NULL && other != NULL) {
        size_t before = size_of(block_of(memory), memory);
        copy(other, memory, before < size ? before : size);
        release(memory);
    }
    LEAVE();
    return other;
}

static int is_power_of_two(size_t number)
{
    return number != 0 && (number & (number - 1)) == 0;
}

void *aligned_alloc(size_t alignment, size_t size)
{
    ENTER();
    void *memory = NULL;
    if (is_power_of_two(alignment)) {
        memory = allocate_aligned(alignment, size);
    } else {
        errno = EINVAL;
    }
    LEAVE();
    return memory;
}

void *memalign(size_t alignment, size_t size)
{
    ENTER();
    void *memory = NULL;
    if (is_power_of_two(alignment)) {
        memory = allocate_aligned(alignment, size);
    } else {
        errno = EINVAL;
    }
    LEAVE();
    return memory;
}

int posix_memalign(void **where, size_t alignment, size_t size)
{
    if (!is_power_of_two(alignment) || alignment < sizeof(void *)) {
        return EINVAL;
    }
    ENTER();
    void *memory = allocate_aligned(alignment, size);
    LEAVE();
    if (memory == NULL) {
        return ENOMEM;
    }
    *where = memory;
    return 0;
}

// ---- strings on the heap

static char *copy_of(const char *text, size_t length, char *memory)
{
    if (memory != NULL) {
        copy((uint8_t *)memory, (const uint8_t *)text, length);
        memory[length] = 0;
    }
    return memory;
}

char *strdup(const char *text)
{
    size_t length = __kit_length(text);
    ENTER();
    __tsan_read_range((void *)text, length + 1);
    char *copy = copy_of(text, length, allocate(length + 1, 0));
    LEAVE();
    return copy;
}

char *strndup(const char *text, size_t most)
{
    size_t length = 0;
    while (length < most && text[length] != 0) {
        length += 1;
    }
    ENTER();
    __tsan_read_range((void *)text, length < most ? length + 1 : length);
    char *copy = copy_of(text, length, allocate(length + 1, 0));
    LEAVE();
    return copy;
}

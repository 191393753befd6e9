/* The heap of the module: what the toolchain's own heap is to a program, over the memory of WebAssembly.

   Blocks have one of some 240 lengths: multiples of 16 up to 256, and eight between each power of two and the next from there on, so
   that at most an eighth of a long block is spare. A block that is given back goes to the list of its length, from which the next of
   this length is taken; where that list is empty, the memory behind all blocks is taken, which grows where it must. Blocks are never
   parted nor joined: what the bench asks for comes in few lengths, again and again.

   Each block has a head of 16 bytes, with its list and its length, so that what is handed out stands at a multiple of 16, the greatest
   that Rattle asks for. */
#include "heap.h"

enum { HEAD = 16, UNIT = 16, LISTS = 256 };

struct head {
    size list;
    size length;
};

/* A block that nobody has: where its bytes would stand, the next of its list. */
struct spare {
    struct head head;
    struct spare *next;
};

static struct spare *lists[LISTS];
/* Where the memory behind all blocks begins, once there is a block. */
static size top;
/* No growth leads to more bytes than this, where it isn't 0. */
static size most;
/* Which call for memory from now on is refused, where it isn't 0. */
static size refused;

/* The least list whose blocks have a head and so many bytes, at least one unit: they are 2 to 16 units long, and the unit is a power of
   two. */
static size list_of(size bytes, size *length) {
    size list = 0, unit = UNIT, whole = HEAD + (bytes ? bytes : 1);
    while (unit * 16 < whole) {
        unit *= 2;
        list += 8;
    }
    size units = (whole + unit - 1) / unit;
    *length = units * unit;
    return list + units;
}

/* So many bytes behind all blocks, or none where the memory can't grow. */
static struct spare *behind(size length) {
    if (!top)
        top = (memory_begin() + 15) / 16 * 16;
    size end = top + length, have = memory_size();
    if (end > have) {
        size more = end - have;
        /* A growth may copy all there is, so each is an eighth of it at least. */
        size wanted = more > have / 8 ? more : have / 8;
        if (most && have + wanted > most)
            wanted = more;
        if ((most && have + wanted > most) || !(memory_grow(wanted) || memory_grow(more)))
            return 0;
    }
    struct spare *block = (struct spare *)top;
    top = end;
    return block;
}

static int is_refused(void) {
    return refused && --refused == 0;
}

static struct head *head_of(void *bytes) {
    return (struct head *)bytes - 1;
}

/* A block of so many bytes, or none. */
static void *block_of(size bytes) {
    size length;
    if (bytes > MOST_BYTES)
        return 0;
    size list = list_of(bytes, &length);
    struct spare *block = lists[list];
    if (block)
        lists[list] = block->next;
    else
        block = behind(length);
    if (!block)
        return 0;
    block->head.list = list;
    block->head.length = length;
    return &block->head + 1;
}

/* Gives a block back. */
static void give_back(void *bytes) {
    struct spare *block = (struct spare *)head_of(bytes);
    block->next = lists[block->head.list];
    lists[block->head.list] = block;
}

/* Memory for so many bytes, at a multiple of `align`. */
struct tried rattle_alloc(size bytes, size align) {
    void *block = align > HEAD || is_refused() ? 0 : block_of(bytes);
    return (struct tried){block != 0, block};
}

/* Memory for so many bytes, that begins with those of a block, which is given back; where there is none, the block stays. */
struct tried rattle_realloc(void *old, size kept, size bytes, size align) {
    size length;
    (void)kept;
    if (is_refused() || bytes > MOST_BYTES)
        return (struct tried){0, 0};
    if (list_of(bytes, &length) == head_of(old)->list)
        return (struct tried){1, old};
    void *block = align > HEAD ? 0 : block_of(bytes);
    if (block) {
        size there = head_of(old)->length - HEAD;
        __builtin_memcpy(block, old, there < bytes ? there : bytes);
        give_back(old);
    }
    return (struct tried){block != 0, block};
}

void rattle_dealloc(void *block) {
    give_back(block);
}

/* Memory for the page's own texts; none where there is none. It is never refused by count. */
void *room(size bytes) {
    return block_of(bytes);
}

void unroom(void *block) {
    give_back(block);
}

/* From now on the memory grows to so many bytes at most; to any, where it is 0. */
void limit(size bytes) {
    most = bytes;
}

/* Refuses one call for memory: the first from now on is 1; none, where it is 0. What was still to be refused is answered. */
size refuse(size call) {
    size left = refused;
    refused = call;
    return left;
}

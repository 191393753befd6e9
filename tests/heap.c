// Tries the page's heap (page/heap.c) against a model: blocks of random lengths, each filled with a byte of its own, are asked for,
// made longer and shorter, and given back, while growths are refused now and then.
//     cc -O1 -fsanitize=address,undefined -Ipage -o heap tests/heap.c page/heap.c && ./heap
#include "heap.h"
#include <stdio.h>
#include <stdlib.h>
#include <string.h>

struct tried rattle_alloc(size, size);
struct tried rattle_realloc(void *, size, size, size);
void rattle_dealloc(void *);
void *room(size);
void unroom(void *);
void limit(size);
size refuse(size);

enum { WHOLE = 64 << 20, BLOCKS = 2000, TURNS = 400000 };

static unsigned char *memory;
static size there = 65536;

// The memory of the test begins where a module's data end: not at a multiple of 16.
size memory_begin(void) { return (size)memory + 1001; }
size memory_size(void) { return (size)memory + there; }
int memory_grow(size more) {
    if (there + more > WHOLE)
        return 0;
    there += more;
    return 1;
}

#define WANT(what) \
    do { \
        if (!(what)) { \
            printf("heap: line %d: not so: %s\n", __LINE__, #what); \
            exit(1); \
        } \
    } while (0)

struct block {
    unsigned char *bytes;
    size length;
    unsigned char filler;
};

static struct block blocks[BLOCKS];
static long answered, refusals;

static unsigned long lot(unsigned long below) {
    static unsigned long long state = 20200101;
    state = state * 6364136223846793005ull + 1442695040888963407ull;
    return (unsigned long)(state >> 33) % below;
}

// Mostly short, as a step's block, now and then long.
static size a_length(void) {
    return lot(50) == 0 ? lot(300000) : lot(4) == 0 ? 1032 : lot(600);
}

static int is_filled(struct block *block, size length) {
    for (size place = 0; place < length; place++)
        if (block->bytes[place] != block->filler)
            return 0;
    return 1;
}

static void fill(struct block *block) {
    block->filler = (unsigned char)lot(256);
    memset(block->bytes, block->filler, block->length);
}

static void ask(struct block *block, size length) {
    struct tried tried = rattle_alloc(length, 16);
    WANT(tried.is_there == (tried.block != 0));
    if (!tried.is_there) {
        refusals++;
        return;
    }
    WANT((size)tried.block % 16 == 0);
    WANT((unsigned char *)tried.block >= memory + 1001 && (unsigned char *)tried.block + length <= memory + there);
    *block = (struct block){tried.block, length, 0};
    fill(block);
    answered++;
}

static void lengthen(struct block *block, size length) {
    size kept = block->length < length ? block->length : length;
    struct tried tried = rattle_realloc(block->bytes, block->length, length, 8);
    if (!tried.is_there) {
        refusals++;
        WANT(is_filled(block, block->length));
        return;
    }
    block->bytes = tried.block;
    WANT(is_filled(block, kept));
    block->length = length;
    fill(block);
}

static void give_back(struct block *block) {
    WANT(is_filled(block, block->length));
    rattle_dealloc(block->bytes);
    block->bytes = 0;
}

static void turn(struct block *block) {
    if (!block->bytes)
        ask(block, a_length());
    else if (lot(3) == 0)
        lengthen(block, a_length());
    else
        give_back(block);
}

// One call is refused, the one that was named, and those before and after it are not.
static void refuse_each(void) {
    for (size call = 1; call < 40; call++) {
        refuse(call);
        for (size number = 1; number < 45; number++) {
            struct tried tried = rattle_alloc(100, 8);
            WANT(tried.is_there == (number != call));
            if (tried.is_there)
                rattle_dealloc(tried.block);
        }
        WANT(refuse(0) == 0);
    }
    refuse(7);
    WANT(refuse(0) == 7);
}

// Under a limit what was given back is there, and nothing more.
static void keep_a_limit(void) {
    void *first = room(1000000);
    WANT(first != 0);
    unroom(first);
    limit(there + (size)memory);
    WANT(room(30 << 20) == 0);
    void *second = room(1000000);
    WANT(second == first);
    limit(0);
    void *third = room(30 << 20);
    WANT(third != 0);
    unroom(second);
    unroom(third);
}

// What is given back is had again: the same blocks in turn take no more memory.
static void stay(void) {
    size before = 0;
    for (int round = 0; round < 20; round++) {
        for (int place = 0; place < BLOCKS; place++)
            ask(&blocks[place], 16 + place);
        for (int place = 0; place < BLOCKS; place++)
            give_back(&blocks[place]);
        if (round == 0)
            before = there;
        WANT(there == before);
    }
}

int main(void) {
    memory = malloc(WHOLE);
    stay();
    keep_a_limit();
    refuse_each();
    for (long done = 0; done < TURNS; done++) {
        if (lot(1000) == 0)
            limit(lot(2) ? (size)memory + there : 0);
        turn(&blocks[lot(BLOCKS)]);
    }
    WANT(!rattle_alloc(100, 32).is_there);
    WANT(!rattle_alloc((size)-1, 8).is_there && !rattle_alloc(MOST_BYTES, 8).is_there);
    for (int place = 0; place < BLOCKS; place++)
        if (blocks[place].bytes)
            give_back(&blocks[place]);
    WANT(answered > TURNS / 4 && refusals > 100);
    printf("heap: %ld blocks were asked for and had, %ld refused, in %lu bytes\n", answered, refusals, (unsigned long)there);
    free(memory);
    return 0;
}

/* What the heap stands on: the memory of WebAssembly, or of a test. */
typedef __SIZE_TYPE__ size;

/* Whether there is memory, and the memory: what Rattle's code gets of a heap. */
struct tried {
    size is_there;
    void *block;
};

/* No block is longer. */
#define MOST_BYTES ((size)1 << 36)

#ifdef __wasm__
extern unsigned char __heap_base;

static size memory_begin(void) {
    return (size)&__heap_base;
}

static size memory_size(void) {
    return (size)__builtin_wasm_memory_size(0) << 16;
}

/* Whether the memory has so many bytes more. */
static int memory_grow(size more) {
    return __builtin_wasm_memory_grow(0, (more + 65535) >> 16) != (size)-1;
}
#else
size memory_begin(void);
size memory_size(void);
int memory_grow(size more);
#endif

/* What `Global` calls in a page, over the module's own memory: free blocks by powers of two, above a top that only grows.
   No block is given back to the browser; the page makes an instance for each call, so that nothing is left of one. */
typedef __SIZE_TYPE__ size;
typedef unsigned char byte;

struct tried {
    _Bool ok;
    void *at;
};

/* What stands before each block. */
struct head {
    struct head *next;
    size order;
};

enum { LEAST = 4, MOST = 31, PAGE = 16, MORE = 64 };

extern byte __heap_base[];
static struct head *freed[MOST + 1];
static size top;
/* Where a pointer points for which there is no memory: to something, since none is null. */
static byte nothing[16] __attribute__((aligned(16)));

/* The least power of two that holds so many bytes. */
static size order_of(size bytes) {
    return bytes <= 1ul << LEAST ? LEAST : 64 - __builtin_clzl(bytes - 1);
}

static _Bool grow(size pages) {
    /* A module that is lowered to 32 bits answers 2^32 - 1 where it fails, and not -1. */
    return (unsigned)__builtin_wasm_memory_grow(0, pages) != ~0u;
}

/* Whether the memory reaches so far, or can be made to. */
static _Bool reaches(size end) {
    size has = __builtin_wasm_memory_size(0) << PAGE;
    if (end <= has) {
        return 1;
    }
    size wanted = (end - has + (1ul << PAGE) - 1) >> PAGE;
    return grow(wanted < MORE ? MORE : wanted) || grow(wanted);
}

static void *fresh(size order) {
    if (!top) {
        top = ((size)__heap_base + 15) & ~15ul;
    }
    size end = top + sizeof(struct head) + (1ul << order);
    if (!reaches(end)) {
        return 0;
    }
    struct head *head = (struct head *)top;
    head->order = order;
    top = end;
    return head + 1;
}

static void *take(size bytes) {
    size order = order_of(bytes);
    if (order > MOST) {
        return 0;
    }
    struct head *head = freed[order];
    if (!head) {
        return fresh(order);
    }
    freed[order] = head->next;
    return head + 1;
}

static void give(void *at) {
    struct head *head = (struct head *)at - 1;
    head->next = freed[head->order];
    freed[head->order] = head;
}

static struct tried tried(void *at) {
    return (struct tried){at != 0, at ? at : nothing};
}

struct tried rattle_alloc(size bytes, size align) {
    return tried(take(bytes ? bytes : align));
}

struct tried rattle_realloc(void *at, size kept, size bytes, size align) {
    size wanted = bytes ? bytes : align;
    if (order_of(wanted) <= ((struct head *)at - 1)->order) {
        return tried(at);
    }
    void *to = take(wanted);
    if (to) {
        __builtin_memcpy(to, at, kept);
        give(at);
    }
    return tried(to);
}

void rattle_dealloc(void *at) {
    give(at);
}

/* Room for what the page hands in and gets back; 0 where there is none. */
void *page_room(size bytes) {
    return take(bytes);
}

void page_free(void *at) {
    give(at);
}

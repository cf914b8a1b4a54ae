/* The memory of the WebAssembly module, in the place of malloc: 16 bytes before each block name its class, four classes to each power of
   two; a list of the free blocks of each; new blocks at the end of what is taken, where the last one may also grow, shrink and go. */
typedef unsigned long long u64;
typedef unsigned char u8;
typedef struct { u64 ok; void *block; } Tried; /* Rattle reads the low byte of `ok` */
typedef struct Head { u64 class; struct Head *next; } Head;

enum { CLASSES = 4 * 58, NEAR = 4, PAGE = 16, AT_ONCE = 16 << 20 };

extern u8 __heap_base;
static Head *lists[CLASSES + NEAR];
static u64 top, end, limit = ~0ull << PAGE;
static u64 nothing[2];

static Tried got(Head *head) { return (Tried){1, head + 1}; }
static Tried refused(void) { return (Tried){0, nothing}; }
static u64 size_of(u64 class) { return (64ull << class / 4) + (16ull << class / 4) * (class % 4); }

static u64 class_of(u64 bytes) {
    u64 class = 0;
    while (size_of(class) < bytes + sizeof(Head)) class++;
    return class;
}

static int is_last(Head *head) { return (u64)head + size_of(head->class) == top; }

/* Has the memory reach so far, and farther at once where that may be. */
static int reaches(u64 far) {
    if (far > limit) return 0;
    if (far <= end) return 1;
    u64 farther = far + AT_ONCE < limit ? far + AT_ONCE : limit;
    for (int once = 0; once < 2; once++) {
        u64 pages = ((once ? far : farther) - end + (1 << PAGE) - 1) >> PAGE;
        /* A refusal is -1 in as many bits as addresses have, and those may be made 32 of 64. */
        if ((unsigned)__builtin_wasm_memory_grow(0, pages) != ~0u) {
            end += pages << PAGE;
            return 1;
        }
    }
    return 0;
}

Tried rattle_alloc(u64 bytes, u64 alignment) {
    if (bytes >> 40 || alignment > sizeof(Head)) return refused();
    if (!top) {
        top = ((u64)&__heap_base + 15) & ~15ull;
        end = (u64)__builtin_wasm_memory_size(0) << PAGE;
    }
    u64 class = class_of(bytes);
    for (u64 near = class; near < class + NEAR; near++) {
        Head *head = lists[near];
        if (head) {
            lists[near] = head->next;
            return got(head);
        }
    }
    if (!reaches(top + size_of(class))) return refused();
    Head *head = (Head *)top;
    head->class = class;
    top += size_of(class);
    return got(head);
}

void rattle_dealloc(void *block) {
    if (block == nothing) return;
    Head *head = (Head *)block - 1;
    if (is_last(head)) {
        top = (u64)head;
        return;
    }
    head->next = lists[head->class];
    lists[head->class] = head;
}

Tried rattle_realloc(void *block, u64 kept, u64 bytes, u64 alignment) {
    Head *head = (Head *)block - 1;
    u64 class = bytes >> 40 ? CLASSES : class_of(bytes);
    if (class == head->class) return got(head);
    if (class < CLASSES && is_last(head) && reaches((u64)head + size_of(class))) {
        head->class = class;
        top = (u64)head + size_of(class);
        return got(head);
    }
    Tried tried = rattle_alloc(bytes, alignment);
    if (tried.ok) {
        __builtin_memcpy(tried.block, block, kept);
        rattle_dealloc(block);
    }
    return tried;
}

/* For the host: room for a text or an answer, which it leaves again; and how much memory the module may take, the whole of it. */
__attribute__((export_name("room"))) void *room(u64 bytes) {
    Tried tried = rattle_alloc(bytes, 16);
    return tried.ok ? tried.block : 0;
}
__attribute__((export_name("leave"))) void leave(void *block) { rattle_dealloc(block); }
__attribute__((export_name("bound"))) void bound(u64 bytes) { limit = bytes >> PAGE << PAGE; }

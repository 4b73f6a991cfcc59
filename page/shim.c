// What the program asks of C's library, for WebAssembly: a heap over memory.grow; files, words and errors from the
// page, by its five functions; no threads. Compiled for a 64-bit memory, as the program's own code is.
typedef unsigned char u8;
typedef unsigned long long u64;
typedef long long i64;

#define IMPORT(name) __attribute__((import_module("page"), import_name(name)))
#define EXPORT(name) __attribute__((export_name(name)))
IMPORT("open") int page_open(const u8 *path, u64 length, int flags);
IMPORT("read") i64 page_read(int file, u8 *to, u64 length);
IMPORT("write") i64 page_write(int file, const u8 *from, u64 length);
IMPORT("close") int page_close(int file);
IMPORT("word") i64 page_word(u64 index, u8 *to, u64 length);

extern u8 __heap_base;

void *memcpy(void *to, const void *from, u64 length) {
    __asm__ volatile("local.get %0\nlocal.get %1\nlocal.get %2\nmemory.copy 0, 0"
                     :: "r"(to), "r"(from), "r"(length) : "memory");
    return to;
}

void *memmove(void *to, const void *from, u64 length) {
    return memcpy(to, from, length);
}

void *memset(void *to, int value, u64 length) {
    __asm__ volatile("local.get %0\nlocal.get %1\nlocal.get %2\nmemory.fill 0"
                     :: "r"(to), "r"(value), "r"(length) : "memory");
    return to;
}

int memcmp(const void *a, const void *b, u64 length) {
    const u8 *x = a, *y = b;
    for (u64 i = 0; i < length; i++)
        if (x[i] != y[i]) return x[i] < y[i] ? -1 : 1;
    return 0;
}

int bcmp(const void *a, const void *b, u64 length) {
    return memcmp(a, b, length);
}

static u64 length_of(const u8 *text) {
    u64 length = 0;
    while (text[length]) length++;
    return length;
}

// The heap: a list of free blocks for each of some sizes, two to a power of two. A block has the number of its size in
// the 16 bytes before it. A new block is cut from the memory's end.
typedef struct block {
    struct block *next;
} block;
static block *lists[96];
static u64 end_used, end_had;

// The number of the least size that has room for a length.
static int number_of(u64 length) {
    if (length <= 32) return 0;
    int top = 63 - __builtin_clzll(length - 1);
    return 2 * (top - 5) + ((length - 1) >> (top - 1) & 1) + 1;
}

static u64 size_of(int number) {
    if (!number) return 32;
    int top = (number - 1) / 2 + 5;
    return (number - 1) % 2 ? 2ull << top : 3ull << (top - 1);
}

// Whether the memory has a size more than is used; it is made greater by at least 1 MiB, or by what is left.
static int has_room(u64 size) {
    if (end_had - end_used >= size) return 1;
    u64 pages = (size - (end_had - end_used) + 65535) >> 16, more = pages < 16 ? 16 : pages;
    if (__builtin_wasm_memory_grow(0, more) == (u64)-1) {
        more = pages;
        if (__builtin_wasm_memory_grow(0, more) == (u64)-1) return 0;
    }
    end_had += more << 16;
    return 1;
}

void *malloc(u64 length) {
    if (length > 1ull << 34) return 0;
    int number = number_of(length);
    block *found = lists[number];
    if (found) {
        lists[number] = found->next;
        return found;
    }
    if (!end_used) {
        end_used = ((u64)&__heap_base + 15) & ~15ull;
        end_had = __builtin_wasm_memory_size(0) << 16;
    }
    u64 size = size_of(number) + 16;
    if (!has_room(size)) return 0;
    u64 at = end_used + 16;
    *(u64 *)(at - 16) = number;
    end_used += size;
    return (void *)at;
}

void free(void *pointer) {
    if (!pointer) return;
    int number = *(u64 *)((u64)pointer - 16);
    ((block *)pointer)->next = lists[number];
    lists[number] = pointer;
}

static void *resized(void *pointer, u64 length) {
    if (!pointer) return malloc(length);
    u64 had = size_of(*(u64 *)((u64)pointer - 16));
    if (length <= had && length * 4 >= had) return pointer;
    void *other = malloc(length);
    if (!other) return 0;
    memmove(other, pointer, length < had ? length : had);
    free(pointer);
    return other;
}

typedef struct {
    u64 is_there;
    void *pointer;
} Tried;
static u8 nothing;

static Tried tried(void *pointer) {
    Tried it = {pointer != 0, pointer ? pointer : &nothing};
    return it;
}

Tried rattle_alloc(u64 length, u64 align) {
    return tried(malloc(length ? length : align));
}

Tried rattle_realloc(void *pointer, u64 kept, u64 length, u64 align) {
    return tried(resized(pointer, length ? length : align));
}

void rattle_dealloc(void *pointer) {
    free(pointer);
}

// Words, files and errors.
static int error_now;

int rattle_errno(void) {
    return error_now;
}

void rattle_set_errno(int error) {
    error_now = error;
}

i64 rattle_arg(u64 index, u8 *to, u64 length) {
    return page_word(index, to, length);
}

i64 rattle_env(const u8 *name, u8 *to, u64 length) {
    return -1;
}

i64 rattle_env_at(u64 index, u8 *to, u64 length) {
    return -1;
}

static i64 answer(i64 number) {
    if (number >= 0) return number;
    error_now = -number;
    return -1;
}

int open(const u8 *path, int flags, ...) {
    return answer(page_open(path, length_of(path), flags));
}

// No folder is made (30 is EROFS), and nothing is told of a path but by open (2 is ENOENT).
int mkdir(const u8 *path, unsigned mode) {
    return answer(-30);
}

int statx(int folder, const u8 *path, int flags, unsigned mask, void *to) {
    return answer(-2);
}

int close(int file) {
    return answer(page_close(file));
}

i64 read(int file, u8 *to, u64 length) {
    return answer(page_read(file, to, length));
}

i64 write(int file, const u8 *from, u64 length) {
    return answer(page_write(file, from, length));
}

int __xpg_strerror_r(int error, u8 *to, u64 length) {
    const char *text = error == 2    ? "No such file or directory"
                       : error == 11 ? "Resource temporarily unavailable"
                                     : "Input/output error";
    u64 i = 0;
    for (; text[i] && i + 1 < length; i++) to[i] = text[i];
    if (length) to[i] = 0;
    return 0;
}

// No thread begins here (11 is EAGAIN), and no signal comes.
int pthread_create(void *thread, void *how, void *does, void *with) {
    return 11;
}

int pthread_attr_init(void *how) {
    return 0;
}

int pthread_attr_setguardsize(void *how, u64 length) {
    return 0;
}

int pthread_attr_setstacksize(void *how, u64 length) {
    return 0;
}

int pthread_attr_destroy(void *how) {
    return 0;
}

u64 pthread_self(void) {
    return 1;
}

int pthread_detach(u64 thread) {
    return 0;
}

int pthread_join(u64 thread, void *result) {
    return 0;
}

int sched_yield(void) {
    return 0;
}

u64 __sysv_signal(int signal, u64 does) {
    return 0;
}

void abort(void) {
    __builtin_trap();
}

int main(void);

EXPORT("page_main") int page_main(void) {
    return main();
}

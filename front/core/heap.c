/* What the proved source needs beside itself in a page: a heap, the places of what is handed over, and a guard.

   The heap is that of `libc::heap`: blocks one above the other. When the last block that is in use is freed, all begins
   anew, so that each call begins with an empty heap. */
typedef unsigned long u64;
typedef unsigned int u32;

struct tried { u64 ok, at; };
extern unsigned char __heap_base;
enum { PAGE = 65536, HEAD = 16 };
static u64 next, used;

static u64 *head(u64 at) { return (u64 *)(at - HEAD); }

/* whether the memory reaches up to an address */
static int reaches(u64 end) {
    u64 has = __builtin_wasm_memory_size(0) * PAGE;
    if (end <= has) return 1;
    return __builtin_wasm_memory_grow(0, (end - has + PAGE - 1) / PAGE) != (u64)-1;
}

struct tried rattle_alloc(u64 size, u64 align) {
    (void)align; /* divides 16 */
    if (size > (u64)1 << 40) return (struct tried){0, 0};
    if (!next) next = ((u64)&__heap_base + 15) & ~(u64)15;
    u64 at = next + HEAD, end = at + ((size + 15) & ~(u64)15);
    if (!reaches(end)) return (struct tried){0, 0};
    *head(at) = size;
    next = end;
    used++;
    return (struct tried){1, at};
}

void rattle_dealloc(unsigned char *p) {
    u64 at = (u64)p;
    if (at + ((*head(at) + 15) & ~(u64)15) == next) next = at - HEAD;
    if (!--used) next = 0;
}

/* moves the first `kept` bytes into a new block, or makes the last block longer */
struct tried rattle_realloc(unsigned char *p, u64 kept, u64 size, u64 align) {
    u64 at = (u64)p;
    if (at + ((*head(at) + 15) & ~(u64)15) == next && size <= (u64)1 << 40) {
        u64 end = at + ((size + 15) & ~(u64)15);
        if (!reaches(end)) return (struct tried){0, 0};
        *head(at) = size;
        next = end;
        return (struct tried){1, at};
    }
    struct tried got = rattle_alloc(size, align);
    if (got.ok) {
        __builtin_memcpy((void *)got.at, p, kept < size ? kept : size);
        rattle_dealloc(p);
    }
    return got;
}

/* The structs of `asked`, `entries` and `told`. A page writes loan, payment and entries, and reads told and rows. */
struct loan { u64 principal, charge_value; u32 numbers[10]; };
struct payment { u64 amount; u32 day, business_day; };
struct told { u64 cents[5]; u32 status, instalments; };
struct row { u64 outstanding; u32 number, days; };
struct entry { u64 amount; u32 numbers[6]; };
enum { MOST_ROWS = 360, MOST_ENTRIES = 9999 };
static struct {
    struct loan loan;
    struct payment payment;
    struct told told;
    struct row rows[MOST_ROWS];
    struct entry entries[MOST_ENTRIES];
} page;

u32 mf_stands(struct loan *, struct entry *, u64, struct row *, u64, struct told *);
u32 mf_after(struct loan *, struct entry *, u64, struct payment *, struct row *, u64, struct told *);

/* A trap ends a call in the middle; heap and stack stay as they were then. From then on nothing is told. */
static u32 is_inside;

__attribute__((export_name("places"))) u64 places(void) { return (u64)&page; }

__attribute__((export_name("stands"))) u32 stands(u32 count) {
    if (is_inside || count > MOST_ENTRIES) return 0;
    is_inside = 1;
    u32 told = mf_stands(&page.loan, page.entries, count, page.rows, MOST_ROWS, &page.told);
    is_inside = 0;
    return told;
}

__attribute__((export_name("after"))) u32 after(u32 count) {
    if (is_inside || count > MOST_ENTRIES) return 0;
    is_inside = 1;
    u32 told = mf_after(&page.loan, page.entries, count, &page.payment, page.rows, MOST_ROWS, &page.told);
    is_inside = 0;
    return told;
}

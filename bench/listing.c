/* The work of the listing program in plain C, for bench/run: the same answers on the same recordings, with the same kind of
   block check (by half bytes; with BIT_BY_BIT as both had it once). Written for speed and plainness, proved by nothing. */
typedef unsigned char u8;
typedef unsigned short u16;
typedef unsigned int u32;
typedef unsigned long usize;

extern long read(int, void *, usize);
extern long write(int, const void *, usize);
extern void *memcpy(void *, const void *, usize);
extern void *memmove(void *, const void *, usize);
extern void *memset(void *, int, usize);

enum { KEYS = 32, MOST = 128, CHUNK = 32768, TEXT = 49152 };

struct list { u32 numbers[MOST]; u8 kinds[MOST]; usize len; u8 named; };
struct entry { u32 key; int on; struct list shown, open; };
struct field { const u8 *ids; u32 key; u8 more, flag, la, width, qualifier, count; };

static struct entry table[KEYS];
static usize held;
static u8 chunk[CHUNK], text[TEXT];

#ifdef BIT_BY_BIT
static u32 moved_by_eight(u32 r) {
    for (int k = 0; k < 8; k++) r = r & 0x8000 ? (r << 1) ^ 0x11021 : r << 1;
    return r;
}
#else
static const u16 remainders[16] = {
    0x0000, 0x1021, 0x2042, 0x3063, 0x4084, 0x50a5, 0x60c6, 0x70e7, 0x8108, 0x9129, 0xa14a, 0xb16b, 0xc18c, 0xd1ad, 0xe1ce, 0xf1ef,
};

static u32 moved_by_eight(u32 r) {
    for (int k = 0; k < 2; k++) r = remainders[r >> 12] ^ (r << 4 & 0xFFFF);
    return r;
}
#endif

static u32 check_of(const u8 *p, usize n) {
    u32 r = 0xFFFF;
    for (usize i = 0; i < n; i++) r = moved_by_eight(r ^ (u32)p[i] << 8);
    return r ^ 0xFFFF;
}

/* Reads the field at *at of a linking FIG's body; 0 if it does not fit. */
static int field_at(const u8 *body, usize len, usize *at, struct field *f, int *fault) {
    if (*at + 2 > len) return 0;
    u8 h = body[0], a = body[*at], b = body[*at + 1];
    u32 lsn = (u32)(a & 15) << 8 | b;
    f->more = h >> 7;
    f->flag = a >> 7;
    f->la = a >> 6 & 1;
    f->key = (u32)(h >> 6 & 1) << 15 | (u32)(h >> 5 & 1) << 14 | (u32)(a >> 5 & 1) << 13 | (u32)(a >> 4 & 1) << 12 | lsn;
    f->width = h >> 5 & 1 ? 4 : a >> 4 & 1 ? 3 : 2;
    f->qualifier = f->count = 0;
    int bad = lsn == 0 ? 5 : 7;
    if (!f->flag) {
        *at += 2;
    } else {
        if (*at + 3 > len) return 0;
        u8 c = body[*at + 2];
        f->qualifier = c >> 5 & 3;
        f->count = c & 15;
        f->ids = body + *at + 3;
        if (*at + 3 + f->count * f->width > len) return 0;
        *at += 3 + f->count * f->width;
        if (c & 0x90 || f->qualifier == 2 || (h >> 5 & 1 && f->qualifier)) bad = 5;
        else if (bad == 7 && !f->more && f->count == 0) bad = 6;
    }
    if (bad < *fault) *fault = bad;
    return 1;
}

static int add(struct list *l, u8 kind, u32 number) {
    for (usize i = 0; i < l->len; i++) if (l->kinds[i] == kind && l->numbers[i] == number) return 1;
    if (l->len == MOST) return 0;
    l->numbers[l->len] = number;
    l->kinds[l->len++] = kind;
    return 1;
}

static int add_all(struct list *l, const struct field *f) {
    l->named |= f->qualifier == 1 ? 1 : f->qualifier == 3 ? 2 : 0;
    for (usize i = 0; i < f->count; i++) {
        u32 n = 0;
        for (usize k = 0; k < f->width; k++) n = n << 8 | f->ids[i * f->width + k];
        if (!add(l, i == 0 && !f->more && f->key < 0x8000 ? 0 : f->qualifier, n)) return 0;
    }
    return 1;
}

static void open_list(struct list *l, const struct field *f) {
    l->len = 0;
    l->named = 0;
    add_all(l, f);
}

static void take_field(const struct field *f) {
    usize p = 0;
    while (p < held && table[p].key < f->key) p++;
    int start = f->flag && !f->more;
    if (p == held || table[p].key != f->key) {
        if (!start || held == KEYS) return;
        memmove(table + p + 1, table + p, (held - p) * sizeof *table);
        held++;
        table[p].key = f->key;
        table[p].shown.len = 0;
        table[p].on = f->la;
        open_list(&table[p].open, f);
        return;
    }
    struct entry *e = table + p;
    e->on = f->la;
    if (start) {
        if (e->open.len) memcpy(&e->shown, &e->open, sizeof e->open);
        open_list(&e->open, f);
    } else if (f->flag && e->open.len) {
        if (!add_all(&e->open, f)) e->open.len = 0;
    }
}

static void take_block(const u8 *fib) {
    struct field fields[14];
    usize n = 0, at = 0;
    int fault = 7;
    if (check_of(fib, 30) != ((u32)fib[30] << 8 | fib[31])) fault = 2;
    while (fault > 3 && at < 30 && fib[at] != 0xFF) {
        usize len = fib[at] & 31;
        if (len == 0 || at + 1 + len > 30) { fault = 3; break; }
        const u8 *body = fib + at + 1;
        if (fib[at] >> 5 == 0 && (body[0] & 31) == 6)
            for (usize p = 1; p < len; n++)
                if (!field_at(body, len, &p, fields + n, &fault)) { fault = 4; break; }
        at += 1 + len;
    }
    if (fault < 7) {
        for (usize i = 0; i < held; i++) table[i].open.len = 0;
        return;
    }
    for (usize i = 0; i < n; i++) take_field(fields + i);
}

static u8 *out = text;
static void put(const char *s) { while (*s) *out++ = *s++; }
static void hex(u32 n, int digits) { while (digits--) *out++ = "0123456789ABCDEF"[n >> 4 * digits & 15]; }
static void dec(usize n) { if (n > 9) dec(n / 10); *out++ = '0' + n % 10; }

int main(void) {
    usize n = 0, rest = 0, shown = 0;
    for (;;) {
        long got;
        n = 0;
        while (n < CHUNK && (got = read(0, chunk + n, CHUNK - n)) > 0) n += got;
        for (usize i = 0; i + 32 <= n; i += 32) take_block(chunk + i);
        rest = n % 32;
        if (n < CHUNK) break;
    }
    for (usize i = 0; i < held; i++) shown += table[i].shown.len > 0;
    put("sets "); dec(shown); put("\n");
    for (usize i = 0; i < held; i++) {
        struct entry *e = table + i;
        int width = e->key >> 14 & 1 ? 8 : e->key >> 12 & 1 ? 6 : 4, seen = 0;
        if (!e->shown.len) continue;
        hex(e->key, 4); put(e->on ? " on ids " : " off ids "); dec(e->shown.len);
        for (usize k = 0; k < e->shown.len; k++) {
            u8 kind = e->shown.kinds[k];
            seen |= kind == 1 ? 1 : kind == 3 ? 2 : 0;
            put(kind == 0 ? " D" : kind == 1 ? " R" : " M");
            hex(e->shown.numbers[k], width);
        }
        if (e->shown.named & ~seen & 1) put(" R-");
        if (e->shown.named & ~seen & 2) put(" M-");
        put("\n");
    }
    if (rest) { put("tail "); dec(rest); put("\n"); }
    for (u8 *p = text; p < out;) { long w = write(1, p, out - p); if (w <= 0) return 1; p += w; }
    return 0;
}

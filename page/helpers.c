// What compiled code calls by name where there is no C library. No proof covers it.
typedef unsigned long size_t;
typedef unsigned __int128 u128;
typedef struct { unsigned long low, high; } pair;
typedef union { u128 all; pair half; } both;

void *memcpy(void *to, const void *from, size_t n) {
    unsigned char *t = to;
    const unsigned char *f = from;
    for (; n; n--) *t++ = *f++;
    return to;
}

void *memmove(void *to, const void *from, size_t n) {
    unsigned char *t = to;
    const unsigned char *f = from;
    if (t <= f) for (; n; n--) *t++ = *f++;
    else for (; n; n--) t[n - 1] = f[n - 1];
    return to;
}

void *memset(void *to, int value, size_t n) {
    unsigned char *t = to;
    for (; n; n--) *t++ = value;
    return to;
}

int memcmp(const void *a, const void *b, size_t n) {
    const unsigned char *x = a, *y = b;
    for (; n; n--, x++, y++) if (*x != *y) return *x - *y;
    return 0;
}

int bcmp(const void *a, const void *b, size_t n) { return memcmp(a, b, n); }

// Products, quotients and shifts of 128 bits, for which WebAssembly has no instruction.
u128 __multi3(u128 a, u128 b) {
    unsigned long al = a, ah = a >> 64, bl = b, bh = b >> 64;
    unsigned long a0 = al & 0xffffffff, a1 = al >> 32, b0 = bl & 0xffffffff, b1 = bl >> 32;
    unsigned long p00 = a0 * b0, p01 = a0 * b1, p10 = a1 * b0, p11 = a1 * b1;
    unsigned long middle = (p00 >> 32) + (p01 & 0xffffffff) + (p10 & 0xffffffff);
    unsigned long low = (p00 & 0xffffffff) | (middle << 32), high = p11 + (p01 >> 32) + (p10 >> 32) + (middle >> 32);
    high += al * bh + ah * bl;
    return ((u128)high << 64) | low;
}

static u128 divide(u128 a, u128 b, u128 *rest) {
    u128 q = 0, r = 0;
    for (int i = 127; i >= 0; i--) {
        r = (r << 1) | ((a >> i) & 1);
        if (r >= b) {
            r -= b;
            q |= (u128)1 << i;
        }
    }
    *rest = r;
    return q;
}

u128 __udivti3(u128 a, u128 b) { u128 r; return divide(a, b, &r); }
u128 __umodti3(u128 a, u128 b) { u128 r; divide(a, b, &r); return r; }

u128 __ashlti3(u128 a, int b) {
    both x = {.all = a}, r;
    if (!b) return a;
    if (b & 64) r.half.low = 0, r.half.high = x.half.low << (b & 63);
    else r.half.low = x.half.low << b, r.half.high = (x.half.high << b) | (x.half.low >> (64 - b));
    return r.all;
}

u128 __lshrti3(u128 a, int b) {
    both x = {.all = a}, r;
    if (!b) return a;
    if (b & 64) r.half.high = 0, r.half.low = x.half.high >> (b & 63);
    else r.half.high = x.half.high >> b, r.half.low = (x.half.low >> b) | (x.half.high << (64 - b));
    return r.all;
}

/* The operations in plain C, for the benchmark: no promise but speed. Each makes the checks of document 01 in their
 * order, and writes nothing where it refuses. Little-endian, unaligned loads by memcpy. */
#include "plain.h"

typedef uint8_t u8;
typedef uint16_t u16;
typedef __UINT32_TYPE__ u32;
typedef uint64_t u64;
typedef __INT16_TYPE__ i16;

#define COPY __builtin_memcpy
#define CLEAR __builtin_memset

static inline u32 load32(const u8 *p) { u32 x; COPY(&x, p, 4); return x; }
static inline void store32(u8 *p, u32 x) { COPY(p, &x, 4); }
static inline void store64(u8 *p, u64 x) { COPY(p, &x, 8); }

static void say(u64 *r, u64 a, u64 b, u64 c, u64 d, u64 e, u64 f) {
    r[0] = a, r[1] = b, r[2] = c, r[3] = d, r[4] = e, r[5] = f;
}

/* ---- checks */

static int table_refused(u8 n, const u8 *table, size_t len, u64 *r) {
    int why = 0;
    if (n == 0 || n > 8) why = PHG_VARS;
    else if (len != (n < 3 ? 1u : 1u << (n - 3))) why = PHG_TABLE;
    else if (n < 3 && table[0] >> (1u << n)) why = PHG_PAD;
    if (why) say(r, why, 0, 0, 0, 0, 0);
    return why;
}

/* unphased: the CNOTs and the inverters */
typedef struct { u32 version, w, gates, unphased, score; } Info;

/* 1 for a bad gate. Its four bytes stand in x, the first lowest; the last two are one number, so that a CNOT's target is
 * below w and its last byte 0 in one test. `inverter` is x without its wire for an inverter; in version 1 it is what no x
 * is. */
static inline u32 is_bad(u32 x, u32 w, u32 inverter) {
    u32 kind = x & 255, a = x >> 8 & 255, rest = x >> 16;
    u32 cnot = (kind == 1) & (rest < w) & (a != rest);
    return !(((kind == 2) | cnot | ((x & 0xffff00ffu) == inverter)) & (a < w));
}

/* What is wrong with a bad gate, as phg.h numbers it. Version 1 has the kinds 1 and 2, version 2 also 3. */
static u64 reason_of(u32 x, u32 w, u32 version) {
    u32 kind = x & 255, a = x >> 8 & 255, b = x >> 16 & 255;
    if (kind == 0 || kind > version + 1) return PHG_REASON_KIND;
    if (a >= w || (kind == 1 && b >= w)) return PHG_REASON_WIRE;
    return kind == 1 && a == b ? PHG_REASON_EQUAL : PHG_REASON_SPARE;
}

/* One pass over the gates without a branch on them, so that it vectorises; a second only where one is bad. Inlined, so
 * that a caller pays only for the counts that it uses. */
static inline __attribute__((always_inline)) int file_refused(const u8 *f, size_t len, u64 side, Info *info, u64 *r) {
    u64 why = 0;
    u32 version = 0, w = 0, gates = 0;
    if (len < 8) why = PHG_SHORT;
    else {
        version = (u32)f[3] << 8 | f[4];
        w = f[5];
        gates = (u32)f[6] << 8 | f[7];
        if (f[0] != 0x50 || f[1] != 0x48 || f[2] != 0x47) why = PHG_MARK;
        else if (version != 1 && version != 2) why = PHG_VERSION;
        else if (w == 0 || w > 10) why = PHG_WIRES;
        else if (gates > 2048) why = PHG_COUNT;
        else if (len != 8 + 4 * (size_t)gates) why = PHG_LENGTH;
    }
    if (why) {
        say(r, why, side, 0, 0, 0, 0);
        return 1;
    }
    const u8 *g = f + 8;
    u32 bad = 0, unphased = 0, score = 0, inverter = version == 2 ? 3 : 0x100;
    for (u32 i = 0; i < gates; i++) {
        u32 x = load32(g + 4 * i);
        bad |= is_bad(x, w, inverter);
        unphased += x & 1;
        /* the angle's low byte is the highest here; its bits 14 and 15 do not score */
        score += (u32)((x & 1) == 0) & (u32)((x & 0xff3f0000u) != 0);
    }
    if (bad) {
        u32 i = 0;
        while (!is_bad(load32(g + 4 * i), w, inverter)) i++;
        say(r, PHG_GATE, side, i, reason_of(load32(g + 4 * i), w, version), 0, 0);
        return 1;
    }
    info->version = version, info->w = w, info->gates = gates, info->unphased = unphased, info->score = score;
    return 0;
}

static inline u32 angle_of(u32 x) { return (x >> 8 & 0xff00) | x >> 24; }

/* ---- run */

/* A gate without a branch: a CNOT adds nothing to the phase, a phase gate turns no bit. */
static inline void step(u32 x, u32 *state, u32 *phase) {
    u32 one = *state >> (x >> 8 & 31) & 1, cnot = x & 1;
    *state ^= (one & cnot) << (x >> 16 & 31);
    *phase += -(one & ~cnot) & angle_of(x);
}

/* The same where there are inverters, which turn their bit whatever it is. */
static inline void flipping_step(u32 x, u32 *state, u32 *phase) {
    u32 a = x >> 8 & 31, one = *state >> a & 1, cnot = (x & 3) == 1, inverter = (x & 3) == 3;
    *state ^= (one & cnot) << (x >> 16 & 31) | inverter << a;
    *phase += -(one & ~x) & angle_of(x);
}

/* A good file's gates, one after the other. */
static inline void walk(const u8 *f, const Info *info, u32 *state, u32 *phase) {
    if (info->version == 1)
        for (u32 i = 0; i < info->gates; i++) step(load32(f + 8 + 4 * i), state, phase);
    else
        for (u32 i = 0; i < info->gates; i++) flipping_step(load32(f + 8 + 4 * i), state, phase);
}

void plain_run(const u8 *f, size_t len, u16 start, u64 *r) {
    Info info;
    if (file_refused(f, len, 0, &info, r)) return;
    if (start >> info.w) {
        say(r, PHG_STATE, 0, 0, 0, 0, 0);
        return;
    }
    u32 state = start, phase = 0;
    walk(f, &info, &state, &phase);
    say(r, 0, state, phase & 65535, 0, 0, 0);
}

/* ---- build */

/* The transform of the signs, in 16 bits. The steps of 1, 2 and 4 are written out over eight entries; those of 8 and more
 * vectorise as they stand. */
static void transform(i16 *v, u32 size) {
    for (u32 i = 0; i < size; i += 8) {
        i16 *p = v + i;
        int a = p[0] + p[1], b = p[0] - p[1], c = p[2] + p[3], d = p[2] - p[3];
        int e = p[4] + p[5], f = p[4] - p[5], g = p[6] + p[7], h = p[6] - p[7];
        int k = a + c, l = b + d, m = a - c, n = b - d, o = e + g, q = f + h, r = e - g, s = f - h;
        p[0] = (i16)(k + o), p[1] = (i16)(l + q), p[2] = (i16)(m + r), p[3] = (i16)(n + s);
        p[4] = (i16)(k - o), p[5] = (i16)(l - q), p[6] = (i16)(m - r), p[7] = (i16)(n - s);
    }
    for (u32 h = 8; h < size; h *= 2)
        for (u32 i = 0; i < size; i += 2 * h)
            for (u32 j = i; j < i + h; j++) {
                i16 a = v[j], b = v[j + h];
                v[j] = (i16)(a + b), v[j + h] = (i16)(a - b);
            }
}

/* The same of two or four entries. */
static void transform_few(i16 *v, u32 size) {
    for (u32 h = 1; h < size; h *= 2)
        for (u32 i = 0; i < size; i++)
            if (!(i & h)) {
                i16 a = v[i], b = v[i + h];
                v[i] = (i16)(a + b), v[i + h] = (i16)(a - b);
            }
}

static u8 *put_block(u8 *p, u32 i, const u16 *theta) {
    u32 words = 1u << i;
    u64 head = 2 | i << 8, tail = (u64)(1 | i << 16) << 32;
    for (u32 k = 0; k < words; k++) {
        u32 angle = theta[k ^ k >> 1];
        u32 control = k + 1 == words ? i - 1 : (u32)__builtin_ctz(k + 1);
        store64(p, head | (angle & 0xff00) << 8 | angle << 24 | tail | (u64)control << 40);
        p += 8;
    }
    return p;
}

void plain_build(u8 n, const u8 *table, size_t len, u8 *out, size_t out_len, u64 *r) {
    if (table_refused(n, table, len, r)) return;
    u32 size = 1u << n, file = 16u << n;
    if (out_len < file) {
        say(r, PHG_ROOM, 0, 0, 0, 0, 0);
        return;
    }
    i16 s[256];
    u16 theta[256], minus[256];
    for (u32 x = 0; x < size; x += 8) /* eight entries a byte; for n < 3 the rest of them is not used */
        for (u32 i = 0; i < 8; i++) s[x + i] = (i16)((i16)(table[x / 8] << (15 - i)) >> 15 | 1);
    if (n < 3) transform_few(s, size);
    else transform(s, size);
    for (u32 k = 0; k < size; k++) {
        u16 t = (u16)((u16)s[k] << (14 - n));
        theta[k] = t;
        minus[k] = (u16)-t;
    }
    u32 gates = 4 * size - 2;
    store64(out, 0x0100474850ull | (u64)(n + 1) << 40 | (u64)(gates >> 8) << 48 | (u64)(gates & 255) << 56);
    store32(out + 8, 2 | (u32)n << 8 | 0x40 << 16);
    store32(out + 12, 2 | (theta[1] & 0xff00u) << 8 | (u32)theta[1] << 24);
    u8 *p = out + 16;
    for (u32 i = 1; i < n; i++) p = put_block(p, i, theta + (1u << i));
    put_block(p, n, minus);
    say(r, 0, file, 0, 0, 0, 0);
}

/* ---- fold */

/* A wire's mask has its flip in the bit behind the wires, so that a group is one number. */
void plain_fold(const u8 *f, size_t len, u8 *out, size_t out_len, u64 *r) {
    Info info;
    if (file_refused(f, len, 0, &info, r)) return;
    const u8 *g = f + 8;
    u32 gates = info.gates, flip = 1u << info.w, size = info.version == 2 ? 2 * flip : flip;
    u16 totals[2048], masks[16], met[2048];
    CLEAR(totals, 0, 2 * size);
    for (u32 i = 0; i < 16; i++) masks[i] = (u16)(1u << i);
    for (u32 i = 0; i < gates; i++) {
        const u8 *q = g + 4 * i;
        u16 m = masks[q[1]];
        if (q[0] == 1) masks[q[2]] ^= m;
        else if (q[0] == 2) {
            totals[m] += (u16)(q[2] << 8 | q[3]);
            met[i] = m;
        } else masks[q[1]] = (u16)(m ^ flip);
    }
    u32 kept = info.unphased, after = 0;
    for (u32 m = 0; m < size; m++) {
        kept += totals[m] != 0;
        after += totals[m] % 16384 != 0;
    }
    size_t length = 8 + 4 * (size_t)kept;
    if (out_len < length) {
        say(r, PHG_ROOM, 0, 0, 0, 0, 0);
        return;
    }
    store64(out, 0x0000474850ull | (u64)info.version << 32 | (u64)info.w << 40 | (u64)(kept >> 8) << 48 |
                     (u64)(kept & 255) << 56);
    u8 *p = out + 8;
    for (u32 i = 0; i < gates; i++) {
        u32 x = load32(g + 4 * i);
        if (x & 1) {
            store32(p, x);
            p += 4;
        } else {
            u32 t = totals[met[i]];
            if (t) {
                totals[met[i]] = 0;
                store32(p, (x & 0xffff) | (t & 0xff00) << 8 | t << 24);
                p += 4;
            }
        }
    }
    say(r, 0, length, info.score, after, 0, 0);
}

/* ---- cancel */

/* What is kept is a stack of whole gates above a word that is none. */
void plain_cancel(const u8 *f, size_t len, u16 most, u8 *out, size_t out_len, u64 *r) {
    Info info;
    if (file_refused(f, len, 0, &info, r)) return;
    if (most > 2048) {
        say(r, PHG_ALLOW, 0, 0, 0, 0, 0);
        return;
    }
    u32 stack[2049], top = 0, left = most;
    stack[0] = 0;
    for (u32 i = 0; i < info.gates; i++) {
        u32 x = load32(f + 8 + 4 * i);
        if ((x & 255) == 1 && x == stack[top] && left) top--, left--;
        else stack[++top] = x;
    }
    size_t length = 8 + 4 * (size_t)top;
    if (out_len < length) {
        say(r, PHG_ROOM, 0, 0, 0, 0, 0);
        return;
    }
    store64(out, 0x0000474850ull | (u64)info.version << 32 | (u64)info.w << 40 | (u64)(top >> 8) << 48 |
                     (u64)(top & 255) << 56);
    COPY(out + 8, stack + 1, 4 * top);
    say(r, 0, length, most - left, 0, 0, 0);
}

/* ---- compare and judge */

/* (-2)^(k-1) at each set of k wires, modulo 65,536; 0 at the empty one */
#define W2(a, b) a, b
#define W4(a, b, c) W2(a, b), W2(b, c)
#define W8(a, b, c, d) W4(a, b, c), W4(b, c, d)
#define W16(a, b, c, d, e) W8(a, b, c, d), W8(b, c, d, e)
#define W32(a, b, c, d, e, f) W16(a, b, c, d, e), W16(b, c, d, e, f)
#define W64(a, b, c, d, e, f, g) W32(a, b, c, d, e, f), W32(b, c, d, e, f, g)
#define W128(a, b, c, d, e, f, g, h) W64(a, b, c, d, e, f, g), W64(b, c, d, e, f, g, h)
#define W256(a, b, c, d, e, f, g, h, i) W128(a, b, c, d, e, f, g, h), W128(b, c, d, e, f, g, h, i)
#define W512(a, b, c, d, e, f, g, h, i, j) W256(a, b, c, d, e, f, g, h, i), W256(b, c, d, e, f, g, h, i, j)
static const u16 weights[1024] = {W512(0, 1, 65534, 4, 65528, 16, 65504, 64, 65408, 256),
                                  W512(1, 65534, 4, 65528, 16, 65504, 64, 65408, 256, 65024)};

#define FLIP 0x8000u /* in a wire's mask */

/* Each angle, or its opposite, is added at its mask. */
static inline __attribute__((always_inline)) void tally(const u8 *g, u32 gates, u16 *masks, u16 *v, int minus) {
    for (u32 i = 0; i < gates; i++) {
        const u8 *q = g + 4 * i;
        u16 m = masks[q[1]];
        if (q[0] == 1) masks[q[2]] ^= m;
        else if (minus) v[m] -= (u16)(q[2] << 8 | q[3]);
        else v[m] += (u16)(q[2] << 8 | q[3]);
    }
}

/* The same where there are inverters: at a flipped mask the opposite, and the angle to the constant, which is answered. */
static inline __attribute__((always_inline)) u16 flipping_tally(const u8 *g, u32 gates, u16 *masks, u16 *v, int minus) {
    u16 constant = 0;
    for (u32 i = 0; i < gates; i++) {
        const u8 *q = g + 4 * i;
        u16 m = masks[q[1]];
        if (q[0] == 1) masks[q[2]] ^= m;
        else if (q[0] == 2) {
            u16 angle = (u16)(q[2] << 8 | q[3]), flipped = (u16)-(m >> 15);
            if (minus) angle = (u16)-angle;
            constant += angle & flipped;
            v[m & ~FLIP] += (u16)((angle ^ flipped) - flipped);
        } else masks[q[1]] = (u16)(m ^ FLIP);
    }
    return constant;
}

/* A good file's angles, or their opposites; the answer is the constant, and each wire's mask at the end is in `masks`. */
static inline __attribute__((always_inline)) u16 sums(const u8 *f, const Info *info, u16 *masks, u16 *v, int minus) {
    for (u32 i = 0; i < 16; i++) masks[i] = (u16)(1u << i);
    if (info->version == 2) return flipping_tally(f + 8, info->gates, masks, v, minus);
    tally(f + 8, info->gates, masks, v, minus);
    return 0;
}

/* At each set the sum over the sets that contain it, then by its weight. Steps of 4 and more vectorise as they stand;
 * those of 1 and 2 go four entries at a time, as shifts inside a 64-bit number. */
static void gather(u16 *v, u32 size) {
    if (size >= 8) {
        for (u32 i = 0; i < size; i += 4) {
            u64 x;
            COPY(&x, v + i, 8);
            const u64 even = 0x0000ffff0000ffffull;
            x = (x & ~even) | (((x & even) + (x >> 16 & even)) & even); /* the odd entries, to the even ones */
            u64 z = x >> 32; /* the upper two, to the lower two, with no carry from one entry to the next */
            u64 low = ((x & 0x7fff7fff) + (z & 0x7fff7fff)) ^ ((x ^ z) & 0x80008000);
            x = (x & 0xffffffff00000000ull) | low;
            COPY(v + i, &x, 8);
        }
        for (u32 h = 4; h < size; h *= 2)
            for (u32 i = 0; i < size; i += 2 * h)
                for (u32 j = i; j < i + h; j++) v[j] += v[j + h];
    } else {
        for (u32 h = 1; h < size; h *= 2)
            for (u32 i = 0; i < size; i++)
                if (!(i & h)) v[i] += v[i + h];
    }
    for (u32 i = 0; i < size; i++) v[i] = (u16)(v[i] * weights[i]);
}

static u32 end_at(const u16 *masks, u32 w, u32 state) {
    u32 end = 0;
    for (u32 j = 0; j < w; j++) end |= ((u32)__builtin_parity(masks[j] & state) ^ masks[j] >> 15) << j;
    return end;
}

/* The verdict on a row of differences and the masks of both ends. */
static void settle(const u16 *v, const u16 *firsts, const u16 *seconds, u32 w, u64 *r) {
    u32 size = 1u << w, place = 0;
    while (place + 32 <= size) {
        u16 any = 0;
        for (u32 i = 0; i < 32; i++) any |= v[place + i];
        if (any) break;
        place += 32;
    }
    while (place < size && !v[place]) place++;
    u32 unlike = 0;
    for (u32 j = 0; j < w; j++) unlike |= (u32)(firsts[j] ^ seconds[j]);
    /* 0 where that start ends differently, else 2^i for the first wire i whose start does */
    u32 single = unlike & FLIP ? 0 : unlike ? unlike & -unlike : size;
    u32 state = place < single ? place : single;
    if (state < size) say(r, 0, 1, state, end_at(firsts, w, state), end_at(seconds, w, state), v[state]);
    else say(r, 0, 0, 0, 0, 0, 0);
}

/* The coefficients are sums, so one row takes the first's angles and the second's opposites. */
void plain_compare(const u8 *first, size_t first_len, const u8 *second, size_t second_len, u16 *work,
                   size_t work_len, u64 *r) {
    Info one, two;
    if (file_refused(first, first_len, 0, &one, r)) return;
    if (file_refused(second, second_len, 1, &two, r)) return;
    u32 size = 1u << one.w;
    if (one.w != two.w || work_len < size) {
        say(r, one.w != two.w ? PHG_UNLIKE : PHG_ROOM, 0, 0, 0, 0, 0);
        return;
    }
    u16 firsts[16], seconds[16];
    CLEAR(work, 0, 2 * size);
    u16 constant = sums(first, &one, firsts, work, 0);
    constant += sums(second, &two, seconds, work, 1);
    gather(work, size);
    work[0] = constant;
    settle(work, firsts, seconds, one.w, r);
}

/* The ideal's coefficients are half turns or nothing: the parity of the ones below each set, on packed bits. */
void plain_judge(u8 n, const u8 *table, size_t len, const u8 *f, size_t file_len, u16 *work, size_t work_len, u64 *r) {
    Info info;
    if (table_refused(n, table, len, r)) return;
    if (file_refused(f, file_len, 0, &info, r)) return;
    u32 half = 1u << n, size = 2 * half;
    if (info.w != n + 1u || work_len < size) {
        say(r, info.w != n + 1u ? PHG_UNLIKE : PHG_ROOM, 0, 0, 0, 0, 0);
        return;
    }
    u16 firsts[16], seconds[16];
    CLEAR(work, 0, 2 * size);
    u16 constant = sums(f, &info, firsts, work, 0);
    gather(work, size);
    work[0] = constant;
    u64 t[4] = {0, 0, 0, 0};
    COPY(t, table, len);
    for (u32 i = 0; i < 4; i++) {
        u64 x = t[i];
        x ^= (x & 0x5555555555555555ull) << 1;
        x ^= (x & 0x3333333333333333ull) << 2;
        x ^= (x & 0x0f0f0f0f0f0f0f0full) << 4;
        x ^= (x & 0x00ff00ff00ff00ffull) << 8;
        x ^= (x & 0x0000ffff0000ffffull) << 16;
        x ^= x << 32;
        t[i] = x;
    }
    t[1] ^= t[0], t[3] ^= t[2], t[2] ^= t[0], t[3] ^= t[1];
    if (half >= 8)
        for (u32 x = 0; x < half; x += 8) {
            u32 byte = (u32)(t[x / 64] >> x % 64) & 255;
            for (u32 i = 0; i < 8; i++) work[half + x + i] ^= (u16)(byte << (15 - i) & 0x8000);
        }
    else
        for (u32 x = 0; x < half; x++) work[half + x] ^= (u16)((t[0] >> x & 1) << 15);
    for (u32 i = 0; i < 16; i++) seconds[i] = (u16)(1u << i);
    settle(work, firsts, seconds, info.w, r);
}

/* ---- list */

/* `*pi/D) q[` for D = 2^e, and its length */
static const struct { char text[15]; u8 length; } over[16] = {
    {"*pi/1) q[", 9}, {"*pi/2) q[", 9}, {"*pi/4) q[", 9}, {"*pi/8) q[", 9},
    {"*pi/16) q[", 10}, {"*pi/32) q[", 10}, {"*pi/64) q[", 10}, {"*pi/128) q[", 11},
    {"*pi/256) q[", 11}, {"*pi/512) q[", 11}, {"*pi/1024) q[", 12}, {"*pi/2048) q[", 12},
    {"*pi/4096) q[", 12}, {"*pi/8192) q[", 12}, {"*pi/16384) q[", 13}, {"*pi/32768) q[", 13}};

static inline u32 digits_of(u32 k) { return 1 + (k > 9) + (k > 99) + (k > 999) + (k > 9999); }

/* e of the fraction of an angle: the angle is K * 2^(15 - e), K odd, or e is 0 */
static inline u32 power_of(u32 angle) { return 15 - (u32)__builtin_ctz(angle | 0x8000); }

static size_t line_length(u32 x) {
    if (x & 1) return x & 2 ? 8 : 14;
    u32 angle = angle_of(x), e = power_of(angle);
    return 7 + digits_of(angle >> (15 - e)) + over[e].length;
}

/* A gate's line; up to three bytes behind it are written too. */
static inline u8 *put_line(u8 *p, u32 x) {
    u32 a = x >> 8 & 255;
    if (x & 1) {
        if (x & 2) {
            store64(p, 0x0a3b5d005b712078ull | (u64)('0' + a) << 32); /* x q[a];n */
            return p + 8;
        }
        store64(p, 0x2c5d005b71207863ull | (u64)('0' + a) << 40);              /* cx q[a], */
        store64(p + 6, 0x0a3b5d005b712c5dull | (u64)('0' + (x >> 16 & 255)) << 32); /* ],q[b];n */
        return p + 14;
    }
    u32 angle = angle_of(x), e = power_of(angle), k = angle >> (15 - e), n = digits_of(k);
    store32(p, '(' << 16 | '1' << 8 | 'u');
    p += 3;
    /* five digits, the highest first, then the leading zeros shifted out */
    u32 high = k / 100, low = k % 100, top = high / 100, mid = high % 100;
    u64 d = (u64)top | (u64)(mid / 10) << 8 | (u64)(mid % 10) << 16 | (u64)(low / 10) << 24 | (u64)(low % 10) << 32;
    store64(p, (d | 0x3030303030ull) >> 8 * (5 - n));
    p += n;
    COPY(p, over[e].text, 15);
    p += over[e].length;
    store32(p, (u32)0x0a3b5d00 | ('0' + a));
    return p + 4;
}

static inline u8 *put_wrap(u8 *p, u32 w) {
    store64(p, 0x0a3b5d005b712068ull | (u64)('0' + w - 1) << 32); /* h q[w-1];n */
    return p + 8;
}

/* Whether some wire of a good file does not end on its own mask without a flip: bit 0 of what it holds is the flip. */
static int is_loose(const u8 *g, u32 gates, u32 w) {
    u16 held[16];
    for (u32 i = 0; i < 16; i++) held[i] = (u16)(2u << i);
    for (u32 i = 0; i < gates; i++) {
        u32 x = load32(g + 4 * i), a = x >> 8 & 15;
        if (!(x & 1)) continue;
        if (x & 2) held[a] ^= 1;
        else held[x >> 16 & 15] ^= held[a];
    }
    u32 loose = 0;
    for (u32 i = 0; i < w; i++) loose |= held[i] ^ 2u << i;
    return loose != 0;
}

void plain_list(const u8 *f, size_t len, u8 wrapped, u8 *out, size_t out_len, u64 *r) {
    Info info;
    if (file_refused(f, len, 0, &info, r)) return;
    const u8 *g = f + 8;
    u32 gates = info.gates, w = info.w;
    if (wrapped && is_loose(g, gates, w)) {
        say(r, PHG_LOOSE, 0, 0, 0, 0, 0);
        return;
    }
    size_t frame = 14 + 22 + 7 + (w < 10 ? 1 : 2) + 3 + (wrapped ? 16 : 0);
    if (out_len < frame + 25 * (size_t)gates) { /* a line has at most 25 bytes; only where that may not fit, its length is needed first */
        size_t length = frame;
        for (u32 i = 0; i < gates; i++) length += line_length(load32(g + 4 * i));
        if (out_len < length) {
            say(r, PHG_ROOM, 0, 0, 0, 0, 0);
            return;
        }
    }
    u8 *p = out;
    COPY(p, "OPENQASM 2.0;\ninclude \"qelib1.inc\";\nqreg q[", 43);
    p += 43;
    if (w == 10) *p++ = '1', *p++ = '0';
    else *p++ = (u8)('0' + w);
    COPY(p, "];\n", 3);
    p += 3;
    if (wrapped) p = put_wrap(p, w);
    if (gates) {
        for (u32 i = 0; i + 1 < gates; i++) p = put_line(p, load32(g + 4 * i));
        u8 last[40]; /* the last line goes by a row of its own, so that nothing behind the result is written */
        size_t length = (size_t)(put_line(last, load32(g + 4 * (gates - 1))) - last);
        for (size_t i = 0; i < length; i++) p[i] = last[i];
        p += length;
    }
    if (wrapped) p = put_wrap(p, w);
    say(r, 0, (u64)(p - out), 0, 0, 0, 0);
}

/* ---- compare by brute force */

void brute_compare(const u8 *first, size_t first_len, const u8 *second, size_t second_len, u64 *r) {
    Info one, two;
    if (file_refused(first, first_len, 0, &one, r)) return;
    if (file_refused(second, second_len, 1, &two, r)) return;
    for (u32 start = 0; start >> one.w == 0; start++) {
        u32 a = start, b = start, phase = 0, other = 0;
        walk(first, &one, &a, &phase);
        walk(second, &two, &b, &other);
        if (a != b || (u16)phase != (u16)other) {
            say(r, 0, 1, start, a, b, (u16)(phase - other));
            return;
        }
    }
    say(r, 0, 0, 0, 0, 0, 0);
}

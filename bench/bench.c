/* Ours (the archive) against plain C: equal answers first, then times in alternating rounds. */
#include "plain.h"

typedef uint8_t u8;
typedef uint16_t u16;
typedef __UINT32_TYPE__ u32;
typedef uint64_t u64;

/* of the kit's C library, which comes without headers */
struct timespec { long tv_sec, tv_nsec; };
int clock_gettime(int, struct timespec *);
int printf(const char *, ...);
int memcmp(const void *, const void *, size_t);
void *memcpy(void *, const void *, size_t);
void *memset(void *, int, size_t);
int strcmp(const char *, const char *);
void exit(int);

/* ---- random inputs */

static u64 seed = 0x9e3779b97f4a7c15ull;

static u32 below(u32 n) {
    seed ^= seed << 13, seed ^= seed >> 7, seed ^= seed << 17;
    return (u32)((seed >> 32) * n >> 32);
}

#define FILE_ROOM 8208 /* 2,048 gates and a little more */
#define LIST_ROOM 65600

typedef struct { __attribute__((aligned(64))) u8 bytes[FILE_ROOM]; size_t len; } File;

/* In version 2 one of eight is an inverter. */
static void random_gate(u8 *g, u32 version, u32 w) {
    u32 a = below(w);
    g[1] = (u8)a;
    if (version == 2 && below(8) == 0) {
        g[0] = 3, g[2] = 0, g[3] = 0;
    } else if (w > 1 && below(2)) {
        g[0] = 1, g[2] = (u8)((a + 1 + below(w - 1)) % w), g[3] = 0;
    } else {
        u32 angle = below(8) ? below(65536) : below(16) << 12; /* some round ones, and some zeros */
        g[0] = 2, g[2] = (u8)(angle >> 8), g[3] = (u8)angle;
    }
}

static void random_file(File *f, u32 version, u32 w, u32 gates) {
    u8 head[8] = {0x50, 0x48, 0x47, 0, (u8)version, (u8)w, (u8)(gates >> 8), (u8)gates};
    memcpy(f->bytes, head, 8);
    for (u32 i = 0; i < gates; i++) random_gate(f->bytes + 8 + 4 * i, version, w);
    f->len = 8 + 4 * gates;
}

/* Every wire comes back: the second half ends with what the first half's CNOTs and inverters are, backwards, and has
 * phases before that. */
static void returning_file(File *f, u32 version, u32 w, u32 gates) {
    random_file(f, version, w, gates);
    u32 half = gates / 2, undone = gates;
    for (u32 i = 0; i < half; i++) {
        const u8 *g = f->bytes + 8 + 4 * i;
        if (g[0] != 2) memcpy(f->bytes + 8 + 4 * --undone, g, 4);
    }
    for (u32 i = half; i < undone; i++) {
        u8 *g = f->bytes + 8 + 4 * i;
        g[0] = 2, g[2] = (u8)below(256), g[3] = (u8)below(256);
    }
}

/* Many gates stand beside their twin: half of them are what the one before is. */
static void twin_file(File *f, u32 version, u32 w, u32 gates) {
    random_file(f, version, w, gates);
    for (u32 i = 1; i < gates; i++)
        if (below(2)) memcpy(f->bytes + 8 + 4 * i, f->bytes + 4 + 4 * i, 4);
}

/* Every gate goes: CNOTs of which no two neighbours are equal, and then the same backwards. */
static void nested_file(File *f, u32 w, u32 gates) {
    random_file(f, 1, w, gates);
    for (u32 i = 0; i < gates / 2; i++) {
        u8 *g = f->bytes + 8 + 4 * i, control = (u8)(i % w);
        g[0] = 1, g[1] = control, g[2] = (u8)((control + 1 + below(w - 1)) % w), g[3] = 0;
        memcpy(f->bytes + 4 + 4 * (gates - i), g, 4);
    }
}

/* Whether two gates may change places; two CNOTs never do. */
static int commute(const u8 *p, const u8 *q) {
    if (p[0] == q[0]) return p[0] != 1;
    if (q[0] == 1) return commute(q, p);
    if (p[0] == 1) return q[1] != (q[0] == 2 ? p[2] : p[1]); /* a phase on its target, an inverter on its control */
    return p[1] != q[1];
}

/* The same circuit in another order: neighbours change places where they commute. */
static void reorder(File *to, const File *from) {
    *to = *from;
    u32 gates = (u32)(from->len - 8) / 4;
    for (u32 turn = 0; turn < 4; turn++)
        for (u32 i = turn & 1; i + 1 < gates; i++) {
            u8 *p = to->bytes + 8 + 4 * i, *q = p + 4, keep[4];
            if (!commute(p, q) || below(2)) continue;
            memcpy(keep, p, 4), memcpy(p, q, 4), memcpy(q, keep, 4);
        }
}

static void damage(File *f) {
    switch (below(8)) {
    case 7: f->bytes[3] = (u8)(below(4) == 0), f->bytes[4] = (u8)below(4); break; /* version, at times a good one */
    case 6: f->bytes[6] = (u8)(8 + below(248)), f->bytes[7] |= 1; break; /* count */
    case 5: f->bytes[5] = (u8)(below(4) ? 11 + below(245) : 0); break; /* wires */
    case 0: f->len = below(4) ? (f->len > 3 ? f->len - 1 - below(3) : 0) : below(9); break;
    case 1: f->bytes[f->len] = 0, f->len++; break;
    case 2: f->bytes[below(8)] ^= (u8)(1u << below(8)); break;
    case 3: f->bytes[below((u32)f->len)] ^= (u8)(1u << below(8)); break;
    default: f->bytes[below((u32)f->len)] = (u8)below(256);
    }
}

/* A good file as version 2, with an inverter before its gates and one behind them, on one wire. */
static void invert_around(File *f) {
    u8 inverter[4] = {3, (u8)below(f->bytes[5]), 0, 0};
    u32 gates = (u32)(f->len - 8) / 4 + 2;
    for (size_t i = f->len; i > 8; i--) f->bytes[i + 3] = f->bytes[i - 1];
    memcpy(f->bytes + 8, inverter, 4), memcpy(f->bytes + f->len + 4, inverter, 4);
    f->bytes[4] = 2, f->bytes[6] = (u8)(gates >> 8), f->bytes[7] = (u8)gates;
    f->len += 8;
}

static size_t random_table(u8 *t, u32 n) {
    size_t len = n < 3 ? 1 : 1u << (n - 3);
    for (size_t i = 0; i < 32; i++) t[i] = (u8)below(256);
    if (n < 3) t[0] &= (u8)((1u << (1u << n)) - 1);
    return len;
}

/* ---- equal answers */

static u64 ours[6], plains[6];
#define LINE __attribute__((aligned(64))) /* both sides' slices start alike */
static union { u8 bytes[LIST_ROOM + 4096]; u16 words[4096]; } out_ours LINE, out_plain LINE;
static u32 compared, refusals[19];

static void fill(void) {
    for (size_t i = 0; i < LIST_ROOM; i++) out_ours.bytes[i] = (u8)below(256);
    memcpy(&out_plain, &out_ours, LIST_ROOM);
    for (u32 i = 0; i < 6; i++) ours[i] = 77, plains[i] = 99;
}

static void same(const char *what) {
    if (memcmp(ours, plains, sizeof ours) || memcmp(&out_ours, &out_plain, LIST_ROOM)) {
        printf("%s: the archive and plain C differ\n", what);
        for (u32 i = 0; i < 6; i++) printf(" %llu/%llu", (unsigned long long)ours[i], (unsigned long long)plains[i]);
        for (u32 i = 0; i < LIST_ROOM; i++)
            if (out_ours.bytes[i] != out_plain.bytes[i]) {
                printf("\nbyte %u: %u/%u\n", i, out_ours.bytes[i], out_plain.bytes[i]);
                break;
            }
        exit(1);
    }
    compared++;
    refusals[ours[0] < 19 ? ours[0] : 0]++;
}

static void same_build(u32 n, const u8 *t, size_t len, size_t room) {
    fill();
    phg_build((u8)n, t, len, out_ours.bytes, room, ours);
    plain_build((u8)n, t, len, out_plain.bytes, room, plains);
    same("build");
}

static void same_fold(const File *f, size_t room) {
    fill();
    phg_fold(f->bytes, f->len, out_ours.bytes, room, ours);
    plain_fold(f->bytes, f->len, out_plain.bytes, room, plains);
    same("fold");
}

static void same_cancel(const File *f, u16 most, size_t room) {
    fill();
    phg_cancel(f->bytes, f->len, most, out_ours.bytes, room, ours);
    plain_cancel(f->bytes, f->len, most, out_plain.bytes, room, plains);
    same("cancel");
}

static void same_list(const File *f, u8 wrapped, size_t room) {
    fill();
    phg_list(f->bytes, f->len, wrapped, out_ours.bytes, room, ours);
    plain_list(f->bytes, f->len, wrapped, out_plain.bytes, room, plains);
    same("list");
}

static void same_run(const File *f, u16 start) {
    fill();
    phg_run(f->bytes, f->len, start, ours);
    plain_run(f->bytes, f->len, start, plains);
    same("run");
}

static void same_compare(const File *f, const File *g, size_t room, int brute) {
    fill();
    phg_compare(f->bytes, f->len, g->bytes, g->len, out_ours.words, room, ours);
    plain_compare(f->bytes, f->len, g->bytes, g->len, out_plain.words, room, plains);
    same("compare");
    if (brute && ours[0] == 0) {
        brute_compare(f->bytes, f->len, g->bytes, g->len, plains);
        memcpy(&out_plain, &out_ours, LIST_ROOM);
        same("brute force");
    }
}

static void same_judge(u32 n, const u8 *t, size_t len, const File *f, size_t room) {
    fill();
    phg_judge((u8)n, t, len, f->bytes, f->len, out_ours.words, room, ours);
    plain_judge((u8)n, t, len, f->bytes, f->len, out_plain.words, room, plains);
    same("judge");
}

/* Room enough, just enough, one too few, or any below. */
static size_t some_room(size_t enough, size_t most) {
    switch (below(4)) {
    case 0: return enough ? enough - 1 : 0;
    case 1: return enough;
    case 2: return most;
    default: return below((u32)enough + 1);
    }
}

static void random_cases(u32 cases) {
    static File f, g, built, twins;
    u8 t[40];
    for (u32 c = 0; c < cases; c++) {
        u32 version = 1 + below(2), w = 1 + below(10), gates = below(3) ? below(40) : below(2049);
        if (below(2)) random_file(&f, version, w, gates);
        else returning_file(&f, version, w, gates);
        switch (below(4)) {
        case 0: random_file(&g, 1 + below(2), below(8) ? w : 1 + below(10), below(60)); break;
        case 1: reorder(&g, &f); break;
        case 2: reorder(&g, &f), g.bytes[4] = 2; break; /* which admits what version 1 does */
        default:
            reorder(&g, &f); /* and one gate other than it was */
            if (gates) random_gate(g.bytes + 8 + 4 * below(gates), version, w);
        }
        if (below(3) == 0) damage(below(2) ? &f : &g);
        if (below(16) == 0) damage(&f), damage(&g);
        same_run(&f, (u16)below(below(4) ? 1u << w : 65536));
        same_fold(&f, FILE_ROOM);
        same_fold(&f, some_room(ours[0] ? 0 : ours[1], FILE_ROOM));
        if (below(4)) twin_file(&twins, version, w, gates);
        else twins = f;
        u16 most = (u16)(below(4) ? below(gates + 2) : below(8) ? 2048 : 2049 + below(63487));
        same_cancel(&twins, most, FILE_ROOM);
        same_cancel(&twins, most, some_room(ours[0] ? 0 : ours[1], FILE_ROOM));
        same_list(&f, (u8)below(3), LIST_ROOM);
        same_list(&f, (u8)below(3), some_room(ours[0] ? 0 : ours[1], LIST_ROOM));
        same_compare(&f, &g, 1024, gates < 40);
        same_compare(&f, &g, some_room(1u << w, 1100), 0);

        u32 n = below(16) ? 1 + below(8) : below(256);
        size_t len = random_table(t, n < 9 ? n : 8);
        same_build(n, t, len, FILE_ROOM);
        if (ours[0] == 0) memcpy(built.bytes, out_ours.bytes, built.len = ours[1]);
        else built = f;
        if (ours[0] == 0 && below(2)) invert_around(&built);
        if (below(3) == 0) t[below((u32)len)] ^= (u8)(1u << below(8));
        if (below(8) == 0) len = below(34);
        same_build(n, t, len, some_room(n < 9 ? 16u << n : 16, FILE_ROOM));
        if (below(4) == 0) damage(&built);
        if (below(8) == 0) same_judge(n, t, len, &f, 1024);
        same_judge(n, t, len, &built, 1024);
        same_judge(n, t, len, &built, some_room(n < 9 ? 2u << n : 2, 1100));
    }
}

/* ---- times */

#define SETS 8
static struct {
    File file, other, returning, twins, half_twins, nested, half_nested;
    File flipped, flipped_other, built; /* the flipped ones are of version 2 */
    u8 table[32];
} sets[SETS];

/* Where a slice starts within a page changes a time (its low address bits may be those of the stack), so each round
 * puts it elsewhere. */
static size_t shift;
#define OUT(o) (o.bytes + shift)
#define WORK(o) (o.words + shift / 2)

static void our_build(u32 i) { phg_build(8, sets[i].table, 32, OUT(out_ours), FILE_ROOM, ours); }
static void c_build(u32 i) { plain_build(8, sets[i].table, 32, OUT(out_plain), FILE_ROOM, plains); }
static void our_fold(u32 i) { phg_fold(sets[i].file.bytes, sets[i].file.len, OUT(out_ours), FILE_ROOM, ours); }
static void c_fold(u32 i) { plain_fold(sets[i].file.bytes, sets[i].file.len, OUT(out_plain), FILE_ROOM, plains); }
static void our_cancel(u32 i) { phg_cancel(sets[i].twins.bytes, sets[i].twins.len, 2048, OUT(out_ours), FILE_ROOM, ours); }
static void c_cancel(u32 i) { plain_cancel(sets[i].twins.bytes, sets[i].twins.len, 2048, OUT(out_plain), FILE_ROOM, plains); }
static void our_half_cancel(u32 i) {
    phg_cancel(sets[i].half_twins.bytes, sets[i].half_twins.len, 2048, OUT(out_ours), FILE_ROOM, ours);
}
static void our_nested(u32 i) { phg_cancel(sets[i].nested.bytes, sets[i].nested.len, 2048, OUT(out_ours), FILE_ROOM, ours); }
static void c_nested(u32 i) { plain_cancel(sets[i].nested.bytes, sets[i].nested.len, 2048, OUT(out_plain), FILE_ROOM, plains); }
static void our_half_nested(u32 i) {
    phg_cancel(sets[i].half_nested.bytes, sets[i].half_nested.len, 2048, OUT(out_ours), FILE_ROOM, ours);
}
static void our_compare(u32 i) {
    phg_compare(sets[i].file.bytes, sets[i].file.len, sets[i].other.bytes, sets[i].other.len, WORK(out_ours), 1024, ours);
}
static void c_compare(u32 i) {
    plain_compare(sets[i].file.bytes, sets[i].file.len, sets[i].other.bytes, sets[i].other.len, WORK(out_plain), 1024, plains);
}
static void our_flipped_fold(u32 i) {
    phg_fold(sets[i].flipped.bytes, sets[i].flipped.len, OUT(out_ours), FILE_ROOM, ours);
}
static void c_flipped_fold(u32 i) {
    plain_fold(sets[i].flipped.bytes, sets[i].flipped.len, OUT(out_plain), FILE_ROOM, plains);
}
static void our_flipped_compare(u32 i) {
    phg_compare(sets[i].flipped.bytes, sets[i].flipped.len, sets[i].flipped_other.bytes, sets[i].flipped_other.len,
                WORK(out_ours), 1024, ours);
}
static void c_flipped_compare(u32 i) {
    plain_compare(sets[i].flipped.bytes, sets[i].flipped.len, sets[i].flipped_other.bytes, sets[i].flipped_other.len,
                  WORK(out_plain), 1024, plains);
}
static void brute(u32 i) {
    brute_compare(sets[i].file.bytes, sets[i].file.len, sets[i].other.bytes, sets[i].other.len, plains);
}
static void our_judge(u32 i) {
    phg_judge(8, sets[i].table, 32, sets[i].built.bytes, sets[i].built.len, WORK(out_ours), 1024, ours);
}
static void c_judge(u32 i) {
    plain_judge(8, sets[i].table, 32, sets[i].built.bytes, sets[i].built.len, WORK(out_plain), 1024, plains);
}
static void our_list(u32 i) { phg_list(sets[i].file.bytes, sets[i].file.len, 0, OUT(out_ours), LIST_ROOM, ours); }
static void c_list(u32 i) { plain_list(sets[i].file.bytes, sets[i].file.len, 0, OUT(out_plain), LIST_ROOM, plains); }
static void our_wrapped(u32 i) {
    phg_list(sets[i].returning.bytes, sets[i].returning.len, 1, OUT(out_ours), LIST_ROOM, ours);
}
static void c_wrapped(u32 i) {
    plain_list(sets[i].returning.bytes, sets[i].returning.len, 1, OUT(out_plain), LIST_ROOM, plains);
}
static void our_run(u32 i) { phg_run(sets[i].file.bytes, sets[i].file.len, 1023, ours); }
static void c_run(u32 i) { plain_run(sets[i].file.bytes, sets[i].file.len, 1023, plains); }

typedef void Call(u32);

static double now(void) {
    struct timespec t;
    clock_gettime(1, &t);
    return (double)t.tv_sec * 1e9 + (double)t.tv_nsec;
}

/* nanoseconds a call */
static double timed(Call *call, u32 calls) {
    double began = now();
    for (u32 i = 0; i < calls; i++) call(i % SETS);
    return (now() - began) / calls;
}

#define ROUNDS 21

static double median(double *v, u32 n) {
    for (u32 i = 1; i < n; i++)
        for (u32 j = i; j && v[j] < v[j - 1]; j--) {
            double keep = v[j];
            v[j] = v[j - 1], v[j - 1] = keep;
        }
    return v[n / 2];
}

static void measure(const char *name, Call *a, Call *b, u32 rounds) {
    double first[ROUNDS], second[ROUNDS];
    u32 many[2];
    for (u32 k = 0; k < 2; k++) { /* some 20 ms a round, and each input as often as another */
        Call *call = k ? b : a;
        call(0);
        double once = timed(call, 1);
        u32 n = once > 2e7 ? 1 : (u32)(2e7 / once);
        many[k] = n < SETS ? n : n / SETS * SETS;
    }
    for (u32 i = 0; i < rounds; i++) {
        shift = i * 64 * 13 % 4096;
        if (i & 1) second[i] = timed(b, many[1]), first[i] = timed(a, many[0]);
        else first[i] = timed(a, many[0]), second[i] = timed(b, many[1]);
    }
    shift = 0;
    double x = median(first, rounds), y = median(second, rounds);
    printf("| %-30s | %12.2f | %12.2f | %9.2f |\n", name, x / 1000, y / 1000, x / y);
}

int main(int argc, char **argv) {
    if (argc > 1 && !strcmp(argv[1], "emulated"))
        printf("This processor is not x86-64: the program runs under an emulator. The times say nothing by themselves, only "
               "the ratios do, and they are ratios under emulation.\n\n");
    for (u32 i = 0; i < SETS; i++) {
        random_file(&sets[i].file, 1, 10, 2048);
        reorder(&sets[i].other, &sets[i].file);
        returning_file(&sets[i].returning, 1, 10, 2048);
        random_file(&sets[i].flipped, 2, 10, 2048);
        reorder(&sets[i].flipped_other, &sets[i].flipped);
        twin_file(&sets[i].twins, 1, 10, 2048);
        twin_file(&sets[i].half_twins, 1, 10, 1024);
        nested_file(&sets[i].nested, 10, 2048);
        nested_file(&sets[i].half_nested, 10, 1024);
        random_table(sets[i].table, 8);
        same_build(8, sets[i].table, 32, FILE_ROOM);
        memcpy(sets[i].built.bytes, out_ours.bytes, sets[i].built.len = ours[1]);
        same_fold(&sets[i].file, FILE_ROOM);
        same_cancel(&sets[i].twins, 2048, FILE_ROOM);
        same_cancel(&sets[i].half_twins, 2048, FILE_ROOM);
        same_cancel(&sets[i].nested, 2048, FILE_ROOM);
        if (ours[2] != 1024) printf("cancel's nested input does not go as a whole\n"), exit(1);
        same_cancel(&sets[i].half_nested, 2048, FILE_ROOM);
        same_compare(&sets[i].file, &sets[i].other, 1024, 1);
        if (ours[1]) printf("compare's inputs are not the same circuit\n"), exit(1);
        same_fold(&sets[i].flipped, FILE_ROOM);
        same_compare(&sets[i].flipped, &sets[i].flipped_other, 1024, 1);
        if (ours[1]) printf("compare's inputs of version 2 are not the same circuit\n"), exit(1);
        same_judge(8, sets[i].table, 32, &sets[i].built, 1024);
        if (ours[1]) printf("judge's input is not the table's oracle\n"), exit(1);
        same_list(&sets[i].file, 0, LIST_ROOM);
        same_list(&sets[i].returning, 1, LIST_ROOM);
        if (ours[0]) printf("list's wrapped input does not come back\n"), exit(1);
        same_run(&sets[i].file, 1023);
    }
    u32 fixed = compared;
    random_cases(1000);
    printf("Equal answers, numbers and slices: %u calls on the inputs below, %u on random ones, good and damaged\n"
           "(answered: %u; refused 1 to 18:", fixed, compared - fixed, refusals[0]);
    for (u32 i = 1; i < 19; i++) printf(" %u", refusals[i]);
    printf(").\n\nMedians of %u alternating rounds, microseconds a call:\n\n", ROUNDS);
    printf("| %-30s | %12s | %12s | %9s |\n|---|---|---|---|\n", "operation", "ours", "plain C", "ratio");
    measure("build, n = 8", our_build, c_build, ROUNDS);
    measure("fold, w = 10, 2,048 gates", our_fold, c_fold, ROUNDS);
    measure("fold, version 2", our_flipped_fold, c_flipped_fold, ROUNDS);
    measure("cancel, w = 10, 2,048 gates", our_cancel, c_cancel, ROUNDS);
    measure("cancel, all of them nested", our_nested, c_nested, ROUNDS);
    measure("compare, w = 10, 2,048 gates", our_compare, c_compare, ROUNDS);
    measure("compare, version 2", our_flipped_compare, c_flipped_compare, ROUNDS);
    measure("judge, n = 8, w = 9", our_judge, c_judge, ROUNDS);
    measure("list, w = 10, 2,048 gates", our_list, c_list, ROUNDS);
    measure("list, wrapped", our_wrapped, c_wrapped, ROUNDS);
    measure("run, w = 10, 2,048 gates", our_run, c_run, ROUNDS);
    printf("\n| %-30s | %12s | %12s | %9s |\n|---|---|---|---|\n", "against brute force", "brute force", "ours", "ratio");
    measure("compare, all 1,024 starts", brute, our_compare, 5);
    printf("\n| %-30s | %12s | %12s | %9s |\n|---|---|---|---|\n", "against half the gates", "2,048 gates", "1,024 gates", "ratio");
    measure("cancel, twins", our_cancel, our_half_cancel, ROUNDS);
    measure("cancel, nested", our_nested, our_half_nested, ROUNDS);
    return 0;
}

/* What the C of an accepted image stands on: the record by which a host knows it, the words of its lines, and the two
   forms of its body. `native IMG` writes C that includes this file twice: as a run, which asks the host for more input
   and more room, and as a run by steps, which gives the turn back to the host instead.

   GP_UNMASKED: addresses aren't held to the data's block. Without it no load and no store leaves the block, whatever a
   compiler made of the program. GP_UNCOUNTED: turns and window traps aren't counted. */
#ifndef GEYSERPAN_NATIVE_H
#define GEYSERPAN_NATIVE_H
#include <stddef.h>
#include <stdint.h>
#include <string.h>

#define GEYSERPAN_NATIVE_ABI 2u

/* The most bytes of a data block: addresses 00080000 to 000FFFFF, and room for a word at its end. */
#define GEYSERPAN_NATIVE_BLOCK (524288u + 8u)

/* Why a step ended. */
enum {
    GEYSERPAN_NATIVE_ENDED = 1, /* the run is over: `word` is its exit word */
    GEYSERPAN_NATIVE_WANTS,     /* a byte of the input is asked for, and `in` is at `in_end` */
    GEYSERPAN_NATIVE_FULL,      /* a byte goes out, and `out` is at `out_end` */
    GEYSERPAN_NATIVE_PAUSED,    /* `turns` have come to `limit` */
    GEYSERPAN_NATIVE_LOST       /* never of an accepted image */
};

/* What a run takes and gives. */
typedef struct geyserpan_native_io geyserpan_native_io;
struct geyserpan_native_io {
    const uint8_t *in, *in_end; /* the bytes of the input that are there, and not taken yet */
    uint8_t *out, *out_end;     /* where output goes, and where its room ends */
    /* of a run: `more` sets more input, 0 where there is none any more, and may empty the room; `full` makes room,
       and its 0 ends the run as FULL */
    int (*more)(geyserpan_native_io *), (*full)(geyserpan_native_io *);
    void *host;                 /* the host's own */
    uint64_t limit;             /* of a step: pauses where a loop begins again, or a function has returned, once
                                   `turns` have come to it */
    uint64_t turns, overflows, underflows; /* counted so far, on `windows` windows; 0 before the first step */
    uint32_t windows;           /* 4 to 32 */
    uint32_t taken;             /* windows that are taken; 1 before the first step */
    uint32_t last;              /* of a step: no byte comes behind in_end */
    uint32_t word;              /* the exit word */
};

/* What a shared object says of itself, as `geyserpan_program_1`. */
typedef struct {
    uint32_t abi;
    uint8_t image[32];    /* SHA-256 of the image's file */
    uint32_t is_counted;  /* whether turns and window traps are counted */
    uint32_t is_masked;
    uint32_t state_bytes; /* of what a run by steps keeps */
    uint32_t block_bytes; /* of its data block, at most GEYSERPAN_NATIVE_BLOCK */
    /* a run from its start: ENDED, or FULL where `full` says so */
    int (*run)(geyserpan_native_io *, uint8_t *block);
    /* the start of a run by steps, and a step */
    void (*start)(uint8_t *block, void *state);
    int (*step)(geyserpan_native_io *, uint8_t *block, void *state);
} geyserpan_native_program;

_Static_assert(sizeof(int) == 4 && (uint32_t)-1 == 0xFFFFFFFFu, "words have 32 bits");
_Static_assert((int32_t)0xFFFFFFFFu >> 1 == -1, "shifts of negative numbers keep the sign");

#if defined __TINYC__
#define GP_INLINE static inline
#define GP_LIKELY(x) (x)
#else
#define GP_INLINE static inline __attribute__((always_inline, unused))
#define GP_LIKELY(x) __builtin_expect(!!(x), 1)
#endif

/* The bytes of the block but for the room at its end. Data stand at its front and the stack at its back, in their order
   of addresses. Where addresses are masked it is the least power of two that both fit into: from 80000 on and up to
   FFFFF, addresses of data and of the stack then have places of their own. */
#if defined GP_UNMASKED || !defined GP_DATA_BYTES
#define GP_BLOCK 524288u
#else
#define GP_FITS(n) (GP_DATA_BYTES + GP_STACK_BYTES <= (n))
#define GP_BLOCK (GP_FITS(4096u) ? 4096u : GP_FITS(8192u) ? 8192u : GP_FITS(16384u) ? 16384u : \
    GP_FITS(32768u) ? 32768u : GP_FITS(65536u) ? 65536u : GP_FITS(131072u) ? 131072u : \
    GP_FITS(262144u) ? 262144u : 524288u)
#endif

/* Where an address lies in the block. */
#if defined GP_UNMASKED
#define GP_PLACE(m, a) ((m) + ((a) - 0x80000u))
#else
#define GP_PLACE(m, a) ((m) + ((a) & (GP_BLOCK - 1u)))
#endif

/* Numbers stand big-endian. */
GP_INLINE uint32_t gp_load8(const uint8_t *m, uint32_t a) { return *GP_PLACE(m, a); }
GP_INLINE void gp_store8(uint8_t *m, uint32_t a, uint32_t x) { *GP_PLACE(m, a) = (uint8_t)x; }
#if defined __TINYC__ || !defined __BYTE_ORDER__ || __BYTE_ORDER__ != __ORDER_LITTLE_ENDIAN__
GP_INLINE uint32_t gp_load16(const uint8_t *m, uint32_t a)
{
    const uint8_t *p = GP_PLACE(m, a);
    return (uint32_t)p[0] << 8 | p[1];
}
GP_INLINE uint32_t gp_load32(const uint8_t *m, uint32_t a)
{
    const uint8_t *p = GP_PLACE(m, a);
    return (uint32_t)p[0] << 24 | (uint32_t)p[1] << 16 | (uint32_t)p[2] << 8 | p[3];
}
GP_INLINE void gp_store16(uint8_t *m, uint32_t a, uint32_t x)
{
    uint8_t *p = GP_PLACE(m, a);
    p[0] = (uint8_t)(x >> 8), p[1] = (uint8_t)x;
}
GP_INLINE void gp_store32(uint8_t *m, uint32_t a, uint32_t x)
{
    uint8_t *p = GP_PLACE(m, a);
    p[0] = (uint8_t)(x >> 24), p[1] = (uint8_t)(x >> 16), p[2] = (uint8_t)(x >> 8), p[3] = (uint8_t)x;
}
#else
GP_INLINE uint32_t gp_load16(const uint8_t *m, uint32_t a)
{
    uint16_t x;
    memcpy(&x, GP_PLACE(m, a), 2);
    return __builtin_bswap16(x);
}
GP_INLINE uint32_t gp_load32(const uint8_t *m, uint32_t a)
{
    uint32_t x;
    memcpy(&x, GP_PLACE(m, a), 4);
    return __builtin_bswap32(x);
}
GP_INLINE void gp_store16(uint8_t *m, uint32_t a, uint32_t x)
{
    uint16_t y = __builtin_bswap16((uint16_t)x);
    memcpy(GP_PLACE(m, a), &y, 2);
}
GP_INLINE void gp_store32(uint8_t *m, uint32_t a, uint32_t x)
{
    x = __builtin_bswap32(x);
    memcpy(GP_PLACE(m, a), &x, 4);
}
#endif

/* The high words of products. */
GP_INLINE uint32_t gp_umulh(uint32_t a, uint32_t b) { return (uint32_t)((uint64_t)a * b >> 32); }
GP_INLINE uint32_t gp_smulh(uint32_t a, uint32_t b)
{
    return (uint32_t)((uint64_t)((int64_t)(int32_t)a * (int32_t)b) >> 32);
}

/* The quotient of y:a by b as the nearest word; whether that is another number. The divisor isn't 0, by proof: were it
   0, the quotient would be all ones. */
GP_INLINE uint32_t gp_udiv(uint32_t y, uint32_t a, uint32_t b, uint32_t *over)
{
    *over = y >= b;
    if (y >= b) return 0xFFFFFFFFu;
    return y == 0 ? a / b : (uint32_t)(((uint64_t)y << 32 | a) / b);
}
GP_INLINE uint32_t gp_sdiv(uint32_t y, uint32_t a, uint32_t b, uint32_t *over)
{
    uint32_t minus = (y ^ b) >> 31, d = b >> 31 ? 0u - b : b, most = 0x7FFFFFFFu + minus;
    uint64_t n = (uint64_t)y << 32 | a, q;
    if (d == 0) return *over = 1, 0xFFFFFFFFu;
    if (y == 0u - (a >> 31) && b + 1u > 1u) return *over = 0, (uint32_t)((int32_t)a / (int32_t)b);
    if (y >> 31) n = 0u - n;
    q = n / d;
    *over = q > most;
    if (q > most) return most;
    return minus ? 0u - (uint32_t)q : (uint32_t)q;
}

/* The words of a program's lines. */
#define WORD uint32_t
#define SIGNED(a) ((int32_t)(a))
#define SAR(a, b) ((uint32_t)((int32_t)(a) >> ((b) & 31u)))
#define UMULH(a, b) gp_umulh(a, b)
#define SMULH(a, b) gp_smulh(a, b)
#define LOAD8(a) gp_load8(m, a)
#define LOAD16(a) gp_load16(m, a)
#define LOAD32(a) gp_load32(m, a)
#define STORE8(a, e) gp_store8(m, a, e)
#define STORE16(a, e) gp_store16(m, a, e)
#define STORE32(a, e) gp_store32(m, a, e)
#define UDIV(x, o, y, a, b) do { uint32_t o_, q_ = gp_udiv(y, a, b, &o_); x = q_; o = o_; } while (0)
#define SDIV(x, o, y, a, b) do { uint32_t o_, q_ = gp_sdiv(y, a, b, &o_); x = q_; o = o_; } while (0)

/* Windows: locals and ins are saved, and outs are ins; and back. */
#define PUSH do { uint32_t *q = saved + 16 * depth++; \
    q[0] = x16, q[1] = x17, q[2] = x18, q[3] = x19, q[4] = x20, q[5] = x21, q[6] = x22, q[7] = x23; \
    q[8] = x24, q[9] = x25, q[10] = x26, q[11] = x27, q[12] = x28, q[13] = x29, q[14] = x30, q[15] = x31; \
    x24 = x8, x25 = x9, x26 = x10, x27 = x11, x28 = x12, x29 = x13, x30 = x14, x31 = x15; } while (0)
#define POP do { uint32_t *q = saved + 16 * --depth; \
    x8 = x24, x9 = x25, x10 = x26, x11 = x27, x12 = x28, x13 = x29, x14 = x30, x15 = x31; \
    x16 = q[0], x17 = q[1], x18 = q[2], x19 = q[3], x20 = q[4], x21 = q[5], x22 = q[6], x23 = q[7]; \
    x24 = q[8], x25 = q[9], x26 = q[10], x27 = q[11], x28 = q[12], x29 = q[13], x30 = q[14], x31 = q[15]; } while (0)

/* Counts: a SAVE that finds all windows but one taken spills, and a RESTORE that finds one taken fills. */
#if defined GP_UNMASKED
#define GP_IS_MASKED 0
#else
#define GP_IS_MASKED 1
#endif
#if defined GP_UNCOUNTED
#define GP_IS_COUNTED 0
#define TURNS(k) ((void)0)
#define ENTER ((void)0)
#define LEAVE ((void)0)
#else
#define GP_IS_COUNTED 1
#define TURNS(k) (t += (k))
#define ENTER do { if (taken == windows - 1) overflows++, t += 25; else taken++, t++; } while (0)
#define LEAVE do { if (taken == 1) underflows++, t += 25; else taken--, t++; } while (0)
#endif

/* What both forms of a program begin with: its variables, and the counts and streams of its run. */
#define GP_VARIABLES \
    uint32_t x0 = 0, x1 = 0, x2 = 0, x3 = 0, x4 = 0, x5 = 0, x6 = 0, x7 = 0, x8 = 0, x9 = 0, x10 = 0, x11 = 0; \
    uint32_t x12 = 0, x13 = 0, x14 = 0, x15 = 0, x16 = 0, x17 = 0, x18 = 0, x19 = 0, x20 = 0, x21 = 0, x22 = 0; \
    uint32_t x23 = 0, x24 = 0, x25 = 0, x26 = 0, x27 = 0, x28 = 0, x29 = 0, x30 = 0, x31 = 0; \
    uint32_t x32 = 0, x33 = 0, x34 = 0, x35 = 0, x36 = 0, x40 = 0, x41 = 0, x42 = 0, x43 = 0, x44 = 0, x45 = 0; \
    uint64_t t = io->turns, overflows = io->overflows, underflows = io->underflows; \
    uint32_t taken = io->taken, depth = 0, word; \
    const uint32_t windows = io->windows; \
    const uint8_t *in = io->in, *in_end = io->in_end; \
    uint8_t *out = io->out, *out_end = io->out_end; \
    int state, asked = 0; \
    (void)x0, (void)x32, (void)x33, (void)x34, (void)x35, (void)x36, (void)x40, (void)x41, (void)x42, (void)x43; \
    (void)x44, (void)x45, (void)taken, (void)windows, (void)t, (void)overflows, (void)underflows, (void)depth; \
    (void)in_end, (void)out_end, (void)asked
#define GP_GIVE_BACK (io->in = in, io->out = out, io->turns = t, io->overflows = overflows, \
    io->underflows = underflows, io->taken = taken)

#define EXIT(e) do { word = (e); goto ended; } while (0)
#define LOST goto lost
#endif

#if !defined GP_STEPS
/* A run: input and room are asked for as they are needed. */
#define GP_SAVED (GP_STACK_BYTES / 64u)
#define RUN_BEGINS \
    static void gp_fill(uint8_t *m) \
    { \
        memset(m, 0, GP_DATA_BYTES); \
        memset(m + GP_BLOCK - GP_STACK_BYTES, 0, GP_STACK_BYTES); \
        memcpy(m, gp_start, sizeof gp_start - 1); \
    } \
    static int gp_run(geyserpan_native_io *io, uint8_t *restrict m) \
    { \
        uint32_t saved[16 * GP_SAVED]; \
        GP_VARIABLES; \
        (void)saved; \
        gp_fill(m);
#define RUN_ENDS \
    ended: \
        io->word = word, state = GEYSERPAN_NATIVE_ENDED; \
        goto leave; \
    full: \
        state = GEYSERPAN_NATIVE_FULL; \
        goto leave; \
    lost: \
        state = GEYSERPAN_NATIVE_LOST; \
    leave: \
        GP_GIVE_BACK; \
        return state; \
        goto full; \
        goto lost; \
        goto ended; \
    }
#define GP_ASK(call) (io->in = in, io->out = out, asked = io->call(io), in = io->in, in_end = io->in_end, \
    out = io->out, out_end = io->out_end, asked)
#define GP_MORE (GP_ASK(more) && in < in_end)
#define GP_ROOM (GP_ASK(full) && out < out_end)
#define GET(k, keeping, x) (x = GP_LIKELY(in < in_end) || GP_MORE ? *in++ : 0xFFFFFFFFu)
#define PUT(k, keeping, e) do { if (!GP_LIKELY(out < out_end) && !GP_ROOM) goto full; *out++ = (uint8_t)(e); } while (0)
#define HEAD(k, keeping) ((void)0)
#else
/* A run by steps: where input or room is wanted, or the limit is met at a loop or behind a call, all is kept, and the
   step ends. */
#undef GET
#undef PUT
#undef HEAD
typedef struct {
    uint32_t at, depth, y, codes[4], registers[32], saved[16 * GP_SAVED];
} gp_state;
#define NO_CODES ((void)0)
#define CODES (s->codes[0] = x32, s->codes[1] = x33, s->codes[2] = x34, s->codes[3] = x35)
#define GP_PAUSE(k, keeping, why) do { keeping; s->at = (k); state = (why); goto keep; } while (0)
#define GET(k, keeping, x) P##k:; \
    if (!GP_LIKELY(in < in_end) && !io->last) GP_PAUSE(k, keeping, GEYSERPAN_NATIVE_WANTS); \
    x = in < in_end ? *in++ : 0xFFFFFFFFu
#define PUT(k, keeping, e) P##k:; \
    if (!GP_LIKELY(out < out_end)) GP_PAUSE(k, keeping, GEYSERPAN_NATIVE_FULL); \
    *out++ = (uint8_t)(e)
#if defined GP_UNCOUNTED
#define HEAD(k, keeping) P##k:
#else
#define HEAD(k, keeping) P##k:; \
    if (!GP_LIKELY(t < limit)) GP_PAUSE(k, keeping, GEYSERPAN_NATIVE_PAUSED)
#endif
#define STEP_BEGINS \
    static void gp_begin(uint8_t *m, void *state) \
    { \
        gp_fill(m); \
        memset(state, 0, offsetof(gp_state, saved)); \
    } \
    static int gp_step(geyserpan_native_io *io, uint8_t *restrict m, void *restrict kept) \
    { \
        gp_state *s = kept; \
        uint32_t *saved = s->saved; \
        const uint64_t limit = io->limit; \
        GP_VARIABLES; \
        (void)saved, (void)limit; \
        depth = s->depth, x36 = s->y; \
        x32 = s->codes[0], x33 = s->codes[1], x34 = s->codes[2], x35 = s->codes[3]; \
        x1 = s->registers[1], x2 = s->registers[2], x3 = s->registers[3], x4 = s->registers[4]; \
        x5 = s->registers[5], x6 = s->registers[6], x7 = s->registers[7], x8 = s->registers[8]; \
        x9 = s->registers[9], x10 = s->registers[10], x11 = s->registers[11], x12 = s->registers[12]; \
        x13 = s->registers[13], x14 = s->registers[14], x15 = s->registers[15], x16 = s->registers[16]; \
        x17 = s->registers[17], x18 = s->registers[18], x19 = s->registers[19], x20 = s->registers[20]; \
        x21 = s->registers[21], x22 = s->registers[22], x23 = s->registers[23], x24 = s->registers[24]; \
        x25 = s->registers[25], x26 = s->registers[26], x27 = s->registers[27], x28 = s->registers[28]; \
        x29 = s->registers[29], x30 = s->registers[30], x31 = s->registers[31]; \
        switch (s->at) { \
        case 0: break;
#define RESUME(k) case k: goto P##k
#define STEP_RESUMES \
        default: goto lost; \
        }
#define STEP_ENDS \
    ended: \
        io->word = word, state = GEYSERPAN_NATIVE_ENDED; \
        GP_GIVE_BACK; \
        return state; \
    lost: \
        state = GEYSERPAN_NATIVE_LOST; \
        GP_GIVE_BACK; \
        return state; \
    keep: \
        s->depth = depth, s->y = x36; \
        s->registers[1] = x1, s->registers[2] = x2, s->registers[3] = x3, s->registers[4] = x4; \
        s->registers[5] = x5, s->registers[6] = x6, s->registers[7] = x7, s->registers[8] = x8; \
        s->registers[9] = x9, s->registers[10] = x10, s->registers[11] = x11, s->registers[12] = x12; \
        s->registers[13] = x13, s->registers[14] = x14, s->registers[15] = x15, s->registers[16] = x16; \
        s->registers[17] = x17, s->registers[18] = x18, s->registers[19] = x19, s->registers[20] = x20; \
        s->registers[21] = x21, s->registers[22] = x22, s->registers[23] = x23, s->registers[24] = x24; \
        s->registers[25] = x25, s->registers[26] = x26, s->registers[27] = x27, s->registers[28] = x28; \
        s->registers[29] = x29, s->registers[30] = x30, s->registers[31] = x31; \
        GP_GIVE_BACK; \
        return state; \
        goto keep; \
        goto ended; \
    } \
    const geyserpan_native_program geyserpan_program_1 = { \
        GEYSERPAN_NATIVE_ABI, GP_IMAGE, GP_IS_COUNTED, GP_IS_MASKED, sizeof(gp_state), GP_BLOCK + 8u, gp_run, \
        gp_begin, gp_step \
    };
#endif

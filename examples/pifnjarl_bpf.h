/* What a program runs on, and how to write one that is accepted. See docs/programs.md; the crate program_interface says
   the first part in Rattle. */
#ifndef PIFNJARL_BPF_H
#define PIFNJARL_BPF_H

typedef unsigned char u8;
typedef unsigned short u16;
typedef unsigned int u32;
typedef unsigned long long u64;

/* The context, 32 bytes; R1 at the start. R2 is the block and R3 the scratch area, 1024 bytes. */
struct context {
    u64 lba;        /* of the block, in the source zone */
    u32 index;      /* of the block in the run, from 0 */
    u32 count;      /* of the blocks of the run */
    u32 block_size; /* in bytes */
    u32 argument;   /* of the run */
    u8 zero[8];
};

/* Helper 1: adds a frame with these bytes, at least one, to what is emitted for the block. */
static long (*const emit)(const void *address, u64 length) = (void *)1;

/* Emits a field of a record, or another object, whole:

       emit_field(order->price); */
#define emit_field(field) emit(&(field), sizeof(field))

/* The 2, 4 or 8 bytes at an offset, which may be any within the area, the least first. One load, where clang makes one for
   each byte of a memcpy:

       u64 day = le32(block, 13); */
static inline u64 le16(const u8 *at, u64 offset) { return *(const u16 *)(at + offset); }
static inline u64 le32(const u8 *at, u64 offset) { return *(const u32 *)(at + offset); }
static inline u64 le64(const u8 *at, u64 offset) { return *(const u64 *)(at + offset); }

/* A barrier: from here on clang knows nothing of the variable, of 64 bits, which keeps its value. So a compare is one of
   this very variable, and not of another that goes with it, and a mask stays where clang knows that it changes nothing:

       barrier(length);
       if (length <= 60) */
#define barrier(variable) \
    do { \
        _Static_assert(sizeof(variable) == 8, "a barrier takes a variable of 64 bits"); \
        asm volatile("" : "+r"(variable)); \
    } while (0)

/* A bounded index: the low bits of a number, at most the mask, which is a power of 2 less 1. The AND stands in the program
   also where clang could do without, and a sum with the result stays a sum, where clang would write OR:

       return block[64 * masked(row, 7) + masked(column, 63)]; */
static inline u64 masked(u64 index, u64 mask)
{
    barrier(index);
    index &= mask;
    barrier(index);
    return index;
}

/* A number of 32 bits scaled to one below a count, of which the program has the number: what their product has above its low
   32 bits. It spreads hashes over the entries of a table as evenly as a remainder would, of which nothing is known:

       count[scaled(hash, 48)]++; */
static inline u64 scaled(u64 number, u64 count)
{
    number = (number & 0xffffffff) * count >> 32;
    barrier(number);
    return number;
}

/* Is the variable, of 64 bits, in a range with both its ends? Two compares of this very variable, behind which its range
   is known:

       u64 length = le16(block, 0);
       if (is_within(length, 1, 60))
           emit(block + 2, length); */
#define is_within(variable, least, most) \
    ({ \
        int within = 0; \
        barrier(variable); \
        if ((variable) >= (least)) { \
            barrier(variable); \
            within = (variable) <= (most); \
        } \
        within; \
    })

/* Steps one behind the other, with no loop, from a macro of a number: step(first), step(first + 1) and so on. A loop that
   can end early may stay one in spite of `#pragma unroll`:

       #define STEP(i) \
           if (block[64 * (i)] == 0) \
               return 0; \
           sum += block[64 * (i) + 1];
       STEPS_8(STEP, 0) */
#define STEPS_2(step, first) step(first) step((first) + 1)
#define STEPS_4(step, first) STEPS_2(step, first) STEPS_2(step, (first) + 2)
#define STEPS_8(step, first) STEPS_4(step, first) STEPS_4(step, (first) + 4)
#define STEPS_16(step, first) STEPS_8(step, first) STEPS_8(step, (first) + 8)
#define STEPS_32(step, first) STEPS_16(step, first) STEPS_16(step, (first) + 16)
#define STEPS_64(step, first) STEPS_32(step, first) STEPS_32(step, (first) + 32)

#endif

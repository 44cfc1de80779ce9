/*
 * Shrunvaki: VHDX images whose bytes nobody vouches for.
 *
 * An image is the first `length` bytes of a buffer of `capacity` bytes. The buffer is the caller's before, during and after every
 * call: nothing is kept, allocated or freed, and no file is opened. Attach, close and their steps write inside the buffer alone,
 * beside their answer. During a call nobody else may write to the buffer, nor read it while one of these runs; so it is with the
 * machine and the piece of the log's work in pieces. Arrays share no byte with the buffer or with each other, and no pointer is null.
 * All else may be anything, every number and every byte: a call answers, or refuses by a number.
 *
 * A file: read it into a buffer with space for what its log grows it by, call shrunvaki_vhdx_attach, and go on with the length in
 * its answer. The log stays in the file and is not marked as applied: attaching again does the same work and gives the same, until
 * shrunvaki_vhdx_close closes the log. examples/attach.c attaches. Link crates/capi/out/libcapi.a, which `rt lib`, run in
 * crates/capi, writes.
 *
 * A file that no buffer holds: shrunvaki_vhdx_pieces_start and _next do the log's work 64 KiB at a time.
 */
#ifndef SHRUNVAKI_H
#define SHRUNVAKI_H

#include <stddef.h>
#include <stdint.h>

#ifdef __cplusplus
extern "C" {
#endif

/*
 * What is wrong where a call refuses by this number; NULL where no call does, as for 0. A call refuses by the first of its
 * numbers that applies:
 *
 *   1 to 8   attach, plan, close, their steps   no byte is changed
 *            pieces                             nothing was asked before but reads, unless the file changed meanwhile
 *   9 to 15  attach                             the log is applied, and every fact is zero
 *  16 to 20  lookup                             nothing is ever written
 *  21, 22    the steps                          no byte is changed
 *  23        close, its steps                   no byte is changed; comes after 8, before 21 and 22
 */
static inline const char *shrunvaki_vhdx_refusal_text(uint64_t number)
{
    static const char *const texts[] = {
        /*  1 */ "the file is shorter than 1 MiB or longer than the capacity",
        /*  2 */ "the file does not begin \"vhdxfile\"",
        /*  3 */ "no header is current",
        /*  4 */ "a field of the current header breaks its rule",
        /*  5 */ "the header names a log, but no log sequence is in it",
        /*  6 */ "the file is shorter than its log says that it was (FlushedFileOffset)",
        /*  7 */ "the log would write into the first MiB or into itself",
        /*  8 */ "the log would grow the file past the capacity or past 128 TiB",
        /*  9 */ "neither copy of the region table is valid",
        /* 10 */ "an entry of the region table breaks its rule",
        /* 11 */ "there is no BAT region or no metadata region",
        /* 12 */ "the metadata region is empty, or its table or an entry breaks its rule",
        /* 13 */ "a needed metadata item is missing or has a wrong length",
        /* 14 */ "a metadata item's value is out of range",
        /* 15 */ "the BAT region is too short for the disk",
        /* 16 */ "the facts do not fit the image, or the length is above the capacity",
        /* 17 */ "the disk has no such sector",
        /* 18 */ "the block's state is reserved, or it is partially present without a parent",
        /* 19 */ "the block starts below 1 MiB or ends past the file",
        /* 20 */ "the block's sector bitmap is not present, starts below 1 MiB or ends past the file",
        /* 21 */ "the log's work has no such step",
        /* 22 */ "the step's sector ends past the given length",
        /* 23 */ "the log cannot be closed: the header's sequence number is at its greatest value",
    };
    return number >= 1 && number <= sizeof texts / sizeof *texts ? texts[number - 1] : NULL;
}

/* The slots of attach's answer, the first three of plan's and close's too. Slots 16 to 31 are 0. */
enum {
    SHRUNVAKI_REFUSAL = 0,
    SHRUNVAKI_LENGTH = 1, /* of the image after the call, in bytes */
    SHRUNVAKI_COUNT = 2,  /* of sectors that were written; one that is named twice counts twice */
    /* the facts: all 0 with a refusal */
    SHRUNVAKI_LOGICAL_SECTOR_SIZE = 3,
    SHRUNVAKI_PHYSICAL_SECTOR_SIZE = 4,
    SHRUNVAKI_BLOCK_SIZE = 5,
    SHRUNVAKI_DISK_SIZE = 6, /* in bytes */
    SHRUNVAKI_HAS_PARENT = 7, /* 0 or 1; lookup and parent key take any number but 0 for 1 */
    SHRUNVAKI_DISK_ID_LOW = 8, /* bytes 0 to 7 of the identifier as stored, little-endian */
    SHRUNVAKI_DISK_ID_HIGH = 9, /* bytes 8 to 15 */
    /* parts of the image, by offset from its start and length */
    SHRUNVAKI_BAT_OFFSET = 10,
    SHRUNVAKI_BAT_LENGTH = 11,
    SHRUNVAKI_METADATA_OFFSET = 12,
    SHRUNVAKI_METADATA_LENGTH = 13,
    SHRUNVAKI_LOCATOR_OFFSET = 14, /* the parent locator; 0 and 0 without a parent */
    SHRUNVAKI_LOCATOR_LENGTH = 15,
    SHRUNVAKI_SLOTS = 32
};

/* Where a sector is: lookup's answer[0]. */
enum {
    SHRUNVAKI_REFUSED = 0,
    SHRUNVAKI_FILE = 1,
    SHRUNVAKI_ZERO = 2,
    SHRUNVAKI_PARENT = 3
};

/*
 * Applies the image's log, then reads its tables. Returns the refusal's number, which is in the answer too.
 *
 * The image grows with zeros up to the answered length, and each sector that the log names is written; no other byte of the
 * buffer changes, in particular none of the first MiB, of the log, or past that length. With refusals 1 to 8 nothing is
 * changed, and the answer is the given length and count 0. With 9 to 15 the log is applied, and length and count say so.
 *
 * A call that was interrupted, whatever it left in the sector being written or however far it grew the image, is made good by
 * another attach of what it left, at the length that it left, in any buffer that holds the answered length. So is one that a power
 * failure ended, whichever of the sectors were on the disk then, whole or torn: attach at the length that the file has then. It is
 * no shorter than at its last flush, if the file system keeps what was flushed.
 */
uint64_t shrunvaki_vhdx_attach(uint8_t *buffer, size_t capacity, uint64_t length, uint64_t answer[32]);

/*
 * Says what attach would do, and does none of it: reads the headers and the log, and never writes the buffer. The time it takes
 * is linear in the log's length, however much the log would write. Returns the number of 1 to 8 by which attach would refuse, 0
 * where it would apply the log; it may then still refuse by 9 to 15, which judge the tables as the log leaves them.
 *
 * answer[0] is the number that is returned, answer[1] the length of the image as attach would leave it, answer[2] the count of
 * sectors that it would write, answer[3] is 0. With a refusal the length is the given one, and the count 0.
 */
uint64_t shrunvaki_vhdx_plan(const uint8_t *buffer, size_t capacity, uint64_t length, uint64_t answer[4]);

/*
 * Does one step of the log's work alone, for a caller who writes the file through after each: step 0 grows the image, step k
 * writes sector k, from 1 to attach's count. answer[0] is the refusal, which is returned too, answer[1] the image's length after
 * the step: grown by step 0, else the given one. A refused step changes nothing.
 */
uint64_t shrunvaki_vhdx_step(uint8_t *buffer, size_t capacity, uint64_t length, uint64_t k, uint64_t answer[2]);

/*
 * Closes the log for good: applies it as attach does, then rewrites one header, so that no log is pending any more. The header that
 * is not current becomes the current one's copy with the next sequence number, no log, this file-write identifier (any 16 bytes; the
 * format wants one that was never used, best a random one) and its checksum. No table is read, so 9 to 15 are not judged.
 *
 * Returns the refusal's number. answer[0] is that number, answer[1] the image's length after the call, answer[2] the count of
 * sectors written, the header not counted. With a refusal nothing is changed, and the answer is the given length and count 0. Where
 * no log is pending the call succeeds and changes nothing.
 *
 * A call that was interrupted is made good by another close of what it left, with the same identifier, at the length that it left,
 * in any buffer that holds the answered length, where a header that was half written is not valid by its checksum. For a file that
 * is written through: the header must not reach the disk before the sectors, so flush between the two. After a power failure, close
 * again at the length that the file then has.
 */
uint64_t shrunvaki_vhdx_close(uint8_t *buffer, size_t capacity, uint64_t length, const uint8_t identifier[16],
                              uint64_t answer[3]);

/*
 * Does one step of closing alone: step 0 grows the image, step k writes sector k, from 1 to close's count, and step count + 1 the
 * header; where no log is pending there is only step 0. answer[0] is the refusal, which is returned too, answer[1] the image's
 * length after the step. Do them in order, from 0 again after an interruption or a power failure, and flush before the header's:
 * the header before its sectors loses the log. A refused step changes nothing.
 */
uint64_t shrunvaki_vhdx_close_step(uint8_t *buffer, size_t capacity, uint64_t length, const uint8_t identifier[16], uint64_t k,
                                   uint64_t answer[2]);

/* What the log's work in pieces asks for: its answer[0]. */
enum {
    SHRUNVAKI_PIECES_REFUSED = 0,    /* [1] the refusal's number, 1 to 8 */
    SHRUNVAKI_PIECES_READ = 1,       /* bytes of the file: [1] their offset, [2] how many, from 1 to 65,536 */
    SHRUNVAKI_PIECES_GROW = 2,       /* that the file is made longer, with zeros: [1] the final length */
    SHRUNVAKI_PIECES_WRITE = 3,      /* that 4,096 bytes are written: [1] their offset; [2] 1 of a data, 0 of a zero descriptor */
    SHRUNVAKI_PIECES_DONE = 4,       /* [1] the final length, [2] the count of sectors that were written */
    SHRUNVAKI_PIECES_NO_MACHINE = 5, /* no machine has these numbers */
    SHRUNVAKI_PIECES_NUMBERS = 64,   /* of a machine */
    SHRUNVAKI_PIECES_LONGEST = 65536 /* piece, in bytes */
};

/*
 * Starts the log's work in pieces: what attach does to a file's bytes before it reads its tables, for a file that no buffer holds.
 * The file has `length` bytes and may grow to `capacity`, which is not allocated and may be any number. The machine is an array of
 * the caller's, whose numbers have no meaning outside; it may be copied, and kept anywhere between two calls.
 *
 * Returns the refusal's number or 0. answer[0] says what is asked (SHRUNVAKI_PIECES_READ and so on), [1] and [2] with what numbers;
 * what is not said to hold a number is 0, and so is [3]. Do what is asked, then call shrunvaki_vhdx_pieces_next. After _REFUSED and
 * _DONE nothing more is asked, and every number of the machine is 0.
 */
uint64_t shrunvaki_vhdx_pieces_start(uint64_t length, uint64_t capacity, uint64_t machine[64], uint64_t answer[4]);

/*
 * Says that what was asked is there or done, and answers what is asked next, as shrunvaki_vhdx_pieces_start does. After _READ the
 * piece begins with the bytes of the file that were asked for, as many as were asked for; after any other request what it holds does
 * not count. With _WRITE the call has put the 4,096 bytes to write at its start; otherwise what it leaves there means nothing.
 *
 * Growth is asked at most once and before any write, the sectors in the order in which attach writes them, zeros too. The first MiB
 * and the log are never written. Where the file gave the same bytes throughout, all that is asked is what attach does, with the same
 * refusals 1 to 8, and a refusal comes before growth and writes. Where it changed between two pieces, the work still ends: no more is
 * written than was planned, nothing past the final length, and a log that does not read as it did is refused by 5, also after writes.
 *
 * Numbers that no machine has are answered by _NO_MACHINE, with 0 returned, and the machine and the piece are left as they were. All
 * zeros are such numbers: nothing comes after the end.
 */
uint64_t shrunvaki_vhdx_pieces_next(uint64_t machine[64], uint8_t piece[65536], uint64_t answer[4]);

/*
 * Says where a sector of the disk is (a sector of the logical sector size). `facts` is attach's answer, of which slots 3 to 15
 * are read. Returns the refusal's number. answer[0] is SHRUNVAKI_REFUSED, _FILE, _ZERO or _PARENT; answer[1] the refusal's
 * number, the offset in the file of the sector's first byte, or 0.
 */
uint64_t shrunvaki_vhdx_lookup(const uint64_t facts[32], const uint8_t *buffer, size_t capacity, uint64_t length,
                               uint64_t sector, uint64_t answer[2]);

/*
 * Finds the value of a key of the parent locator, as "relative_path". Key and value are UCS-2, little-endian; `key_length` is in
 * bytes. answer[0] is the value's offset from the image's start, answer[1] its length in bytes: the value is that part of the
 * buffer. Both are 0 where refusal 16 applies, there is no parent, the locator breaks its rule, or no entry has the key.
 */
void shrunvaki_vhdx_parent_key(const uint64_t facts[32], const uint8_t *buffer, size_t capacity, uint64_t length,
                               const uint8_t *key, size_t key_length, uint64_t answer[2]);

#ifdef __cplusplus
}
#endif

#endif

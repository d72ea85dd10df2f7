/* The disk box for firmware: an Intel 82077AA floppy controller with two drives whose disks are image files in memory.
 *
 * The library, libcapi.a, keeps nothing: all of the controller's state, its record, lies in bytes that the caller
 * lends, and each call reads it there and writes it back. No call allocates, blocks, traps or keeps a pointer. Two
 * records are two boxes; one record is used by one thread at a time. A record may be copied and kept; its first byte
 * is the layout's version, and one of another version is refused.
 *
 *     uint8_t record[BEL_RECORD_MAX];
 *     bel_power_on(record, sizeof record, 0, 0);
 *     bel_write_port(record, sizeof record, 2, 0x0C);
 *
 * The slices that one call is lent must not overlap; a length of 0 goes with any pointer that is not null, also for an
 * image that is not there.
 */
#ifndef BELEDURITZ_H
#define BELEDURITZ_H

#include <stddef.h>
#include <stdint.h>

#ifdef __cplusplus
extern "C" {
#endif

/* No record is larger. bel_record_size() says how many bytes are used; more may be lent, and those behind the record
 * stay as they are. */
#define BEL_RECORD_MAX 512

/* What a call returns: the byte read in bits 0 to 7, the refusal's number in bits 8 to 15 (0: not refused), INT in bit
 * 16, DRQ in bit 17. The lines are those after the call. */
#define BEL_VALUE(word) ((uint8_t)((word)&0xFFu))
#define BEL_REFUSAL(word) ((uint8_t)(((word) >> 8) & 0xFFu))
#define BEL_INT(word) ((int)(((word) >> 16) & 1u))
#define BEL_DRQ(word) ((int)(((word) >> 17) & 1u))

/* The refusals. A refused call has value 0 and leaves record and images as they were; but power-on, refused with 5,
 * writes a fresh record with both heads at 0. */
#define BEL_REFUSED_PORT 1   /* no such port: offset 0, 1, 6 or above 7 */
#define BEL_REFUSED_TURN 2   /* FIFO while RQM is 0 or DIO has the other direction */
#define BEL_REFUSED_LINE 3   /* DMA cycle while DRQ is off or of the other direction */
#define BEL_REFUSED_RECORD 4 /* too few bytes, bytes that are no record (lines 0), as those of another version or never
                              * powered on, or a record with one of document 01's six faults; other records that no call
                              * leaves are accepted */
#define BEL_REFUSED_HEAD 5   /* power-on with a head above 81 */
#define BEL_REFUSED_DRIVE 6  /* disk-change note for a drive above 1 */

/* The bytes of a record. */
uint32_t bel_record_size(void);

/* Power-on, with the heads of drives 0 and 1 where they stand (0 to 81). What stood in the bytes before is not read. */
uint32_t bel_power_on(uint8_t *record, size_t len, uint8_t head0, uint8_t head1);

/* Ports by offset: 2 DOR, 3 TDR, 4 MSR and DSR, 5 FIFO, 7 DIR and CCR. */
uint32_t bel_read_port(uint8_t *record, size_t len, uint8_t offset);
uint32_t bel_write_port(uint8_t *record, size_t len, uint8_t offset, uint8_t byte);

/* A DMA cycle to the host and from it, while DRQ is on. tc: 0, or not 0 with the last byte. */
uint32_t bel_dma_read(uint8_t *record, size_t len, uint8_t tc);
uint32_t bel_dma_write(uint8_t *record, size_t len, uint8_t byte, uint8_t tc);

/* One byte time. The images of drives 0 and 1 are lent; at most one byte of one of them changes. */
uint32_t bel_tick(uint8_t *record, size_t len, uint8_t *image0, size_t len0, uint8_t *image1, size_t len1);

/* A disk was changed in drive 0 or 1. */
uint32_t bel_note_change(uint8_t *record, size_t len, uint8_t drive);

/* Up to n ticks, stopping after the first that changes INT or DRQ, so that a loop pays for the record's bytes once and
 * not at every tick. Low half: the last tick's word; with n 0 value 0 and the record's lines. High half: the ticks
 * made, 0 where the record is refused. The stores of a run are made in the order of its ticks, as the proof has it; in
 * which order they reach memory inside one call is the compiler's part and the hardware's, so a firmware that must know
 * after each store calls bel_tick. */
uint64_t bel_ticks(uint8_t *record, size_t len, uint8_t *image0, size_t len0, uint8_t *image1, size_t len1, uint32_t n);

#define BEL_LAST(word) ((uint32_t)((word)&0xFFFFFFFFu))
#define BEL_MADE(word) ((uint32_t)((word) >> 32))

/* The block service, for whoever knows no cylinders. Block b of a disk is sector b mod S plus 1; the quotient mod heads is
 * the side, the rest the cylinder. A block has B bytes, as the disk's header says: 128 x 2^N.
 *
 * A request takes the record in any phase and drops what it was at: it turns the drive's motor on and leaves it on, resets
 * the controller, moves the head, issues one command, makes all its ticks and DMA cycles and takes the result. It does this
 * by the calls above and by nothing else, so that a cut inside one leaves the image as a cut in those calls does; what
 * bel_ticks says of stores holds here too. What its reset and its Specify (F0 00) set stays: PCN, the step time, DMA, and
 * the FIFO as after power-on.
 *
 * What a block call returns: in bit 0 whether the command ended normally (IC 00), the refusal's number in bits 8 to 15, INT
 * in bit 16, DRQ in bit 17. The first seven bytes of status are the command's ST0 ST1 ST2 C H R N as the controller gave
 * them: after a block that is read or written the address is the next one, after a deleted or a bad one its own. Those
 * behind are kept. */
#define BEL_GOOD(word) ((int)((word)&1u))

/* The refusals of a block call, in this order. Record, images, block and status stay as they were. */
#define BEL_BLOCK_RECORD 4 /* the record, as BEL_REFUSED_RECORD */
#define BEL_BLOCK_END 1    /* no such block: past the end, a drive above 1, or a disk whose header or length does not fit */
#define BEL_BLOCK_SLICE 2  /* the caller's block is not B bytes */
#define BEL_BLOCK_STATUS 3 /* fewer than seven bytes for the status */

/* The blocks of a disk; 0 where header or length does not fit. */
uint32_t bel_blocks(const uint8_t *image, size_t len);

/* Reads a block of drive 0 or 1. A read that fails leaves in out the bytes that came, and the rest as it was. A deleted
 * sector is a block too; its ST2 is 40. */
uint32_t bel_block_read(uint8_t *record, size_t len, uint8_t *image0, size_t len0, uint8_t *image1, size_t len1,
                        uint8_t drive, uint32_t block, uint8_t *out, size_t out_len, uint8_t *status,
                        size_t status_len);

/* Writes a block of drive 0 or 1. */
uint32_t bel_block_write(uint8_t *record, size_t len, uint8_t *image0, size_t len0, uint8_t *image1, size_t len1,
                         uint8_t drive, uint32_t block, const uint8_t *data, size_t data_len, uint8_t *status,
                         size_t status_len);

/* The bytes of a disk of 1 to 82 cylinders, 1 or 2 heads, 1 to 36 slots a track and N 1 to 3; 0 where a number is out of
 * range. */
uint32_t bel_image_size(uint8_t cylinders, uint8_t heads, uint8_t slots, uint8_t n);

/* Makes such a disk, formatted: sectors 1 to S in this order on every track, their bytes fill; protect is 0 or 1. The size;
 * 0 where a number is out of range or len is not the size, and then no byte is written. */
uint32_t bel_image_blank(uint8_t *image, size_t len, uint8_t cylinders, uint8_t heads, uint8_t slots, uint8_t n,
                         uint8_t protect, uint8_t fill);

/* Whether an image is sound, or its first fault in the file's order: the kind below, 0 for sound, and the offset of its byte
 * in bits 32 up. Any bytes of any length may be handed in; they are only read. A fault in header or length hides the later
 * kinds. */
uint64_t bel_judge(const uint8_t *image, size_t len);

#define BEL_FAULT(word) ((uint32_t)((word)&0xFFFFFFFFu))
#define BEL_FAULT_AT(word) ((uint32_t)((word) >> 32))

#define BEL_FAULT_HEADER 1 /* the first of the eight bytes that is wrong, or the end of an image that is shorter */
#define BEL_FAULT_LENGTH 2 /* the smaller of the length that the header asks and the length given */
#define BEL_FAULT_TRACK 3  /* a track's tag or length */
#define BEL_FAULT_PLACE 4  /* a track's cylinder or side byte */
#define BEL_FAULT_MARK 5   /* a mark above 5 */
#define BEL_FAULT_TWICE 6  /* an address twice on a track, at the later slot's mark; marks 1 to 5 have one */
#define BEL_FAULT_END 7    /* the end field */

#ifdef __cplusplus
}
#endif

#endif

/* The block service of request 2026-01 on the model's own controller, for tests only. It was written from document 02 and its
 * settled readings, without looking at the library: a request resets the controller, steps out and in again, and issues one
 * command, all by the calls of model.h.
 *
 * A block call returns the library's word: in bit 0 whether the command ended with IC 00, refusal in 8 to 15, INT in 16, DRQ
 * in 17. The model has no refusal 4. */
#ifndef BLOCKS_H
#define BLOCKS_H

#include "model.h"

enum { STATUS_BYTES = 7 };

/* the refusals of the service itself, in this order */
enum { REFUSED_BLOCK = 1, REFUSED_SLICE = 2, REFUSED_STATUS = 3 };

/* one call that a request makes of the controller, and its answer. a, b: offset; offset and byte; TC; byte and TC */
enum plain { PLAIN_READ, PLAIN_WRITE, PLAIN_DMA_READ, PLAIN_DMA_WRITE, PLAIN_TICK };
struct plain_call { enum plain call; uint8_t a, b; uint32_t word; };

/* What one request made, for whoever counts; `each`, if it is there, hears of every call. */
struct service {
    unsigned long calls, ticks, cycles;
    unsigned reports, recalibrations; /* reports taken after the reset; Recalibrates made */
    unsigned late;                    /* waits that took longer than they may */
    void (*each)(void *whose, struct plain_call call);
    void *whose;
};

/* where a block lies */
struct block_place { uint8_t cylinder, side, sector; };

struct block_place model_block_place(const uint8_t header[HEADER_BYTES], uint32_t block);

/* the blocks of an image, 0 where it does not fit */
uint32_t model_blocks(struct image image);

/* `made` is handed in as 0 but for who hears, and may be NULL */
uint32_t model_block_read(struct model *m, struct image image0, struct image image1, uint8_t drive, uint32_t block,
                          uint8_t *out, size_t out_len, uint8_t *status, size_t status_len, struct service *made);
uint32_t model_block_write(struct model *m, struct image image0, struct image image1, uint8_t drive, uint32_t block,
                           const uint8_t *data, size_t data_len, uint8_t *status, size_t status_len, struct service *made);

/* a formatted blank disk: its size, 0 where a number is out of range; and the disk itself, 0 with nothing written where a
 * number is out of range or the bytes are not as many */
uint32_t model_image_size(uint8_t cylinders, uint8_t heads, uint8_t slots, uint8_t n);
uint32_t model_image_blank(struct image image, const uint8_t header[HEADER_BYTES], uint8_t fill);

#endif

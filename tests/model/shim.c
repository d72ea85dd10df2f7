/* The library's interface on top of the model: a stand-in that the tests are themselves tested with. The model, its block
 * service and its judge are compiled into this file a second time, under other names, so that a wrong copy can stand beside
 * the right one.
 *
 * A record is the model's struct and a checksum behind it; bytes with another checksum are no record. */
#define model_power_on    shim_power_on
#define model_read_port   shim_read_port
#define model_write_port  shim_write_port
#define model_dma_read    shim_dma_read
#define model_dma_write   shim_dma_write
#define model_tick        shim_tick
#define model_ticks       shim_ticks
#define model_note_change shim_note_change
#define model_msr         shim_msr
#define model_image_good  shim_image_good
#define model_track_size  shim_track_size
#define model_blocks      shim_blocks
#define model_block_place shim_block_place
#define model_block_read  shim_block_read
#define model_block_write shim_block_write
#define model_image_size  shim_image_size
#define model_image_blank shim_image_blank
#define model_judge       shim_judge
#include "model.c"
#include "blocks.c"
#include "judge.c"

#include "beleduritz.h"

enum { NO_RECORD = 4 << 8, SUM_BYTES = 4, RECORD_BYTES = sizeof(struct model) + SUM_BYTES };

_Static_assert(RECORD_BYTES <= 512, "a record has at most 512 bytes");
_Static_assert(sizeof(struct model) % 4 == 0, "the checksum takes four bytes at a time");

static uint32_t checksum(const uint8_t *bytes)
{
    uint32_t sum = 2166136261u, word;
    for (size_t i = 0; i < sizeof(struct model); i += sizeof word) {
        memcpy(&word, bytes + i, sizeof word);
        sum = (sum ^ word) * 16777619u;
    }
    return sum;
}

static bool load(struct model *m, const uint8_t *record, size_t len)
{
    uint32_t sum;
    if (len < RECORD_BYTES)
        return false;
    memcpy(&sum, record + sizeof *m, SUM_BYTES);
    if (sum != checksum(record))
        return false;
    memcpy(m, record, sizeof *m);
    return true;
}

static void store(const struct model *m, uint8_t *record)
{
    memcpy(record, m, sizeof *m);
    uint32_t sum = checksum(record);
    memcpy(record + sizeof *m, &sum, SUM_BYTES);
}

uint32_t bel_record_size(void) { return RECORD_BYTES; }

uint32_t bel_power_on(uint8_t *record, size_t len, uint8_t head0, uint8_t head1)
{
    struct model m;
    if (len < RECORD_BYTES)
        return NO_RECORD;
    uint32_t word = model_power_on(&m, head0, head1);
    store(&m, record);
    return word;
}

/* a call on the record lent: read, answered by the model, written back */
#define ANSWERED(answer)            \
    struct model m;                 \
    if (!load(&m, record, len))     \
        return NO_RECORD;           \
    uint32_t word = (answer);       \
    store(&m, record);              \
    return word

uint32_t bel_read_port(uint8_t *record, size_t len, uint8_t offset) { ANSWERED(model_read_port(&m, offset)); }

uint32_t bel_write_port(uint8_t *record, size_t len, uint8_t offset, uint8_t byte)
{
    ANSWERED(model_write_port(&m, offset, byte));
}

uint32_t bel_dma_read(uint8_t *record, size_t len, uint8_t tc) { ANSWERED(model_dma_read(&m, tc != 0)); }

uint32_t bel_dma_write(uint8_t *record, size_t len, uint8_t byte, uint8_t tc)
{
    ANSWERED(model_dma_write(&m, byte, tc != 0));
}

uint32_t bel_tick(uint8_t *record, size_t len, uint8_t *image0, size_t len0, uint8_t *image1, size_t len1)
{
    struct image lent[2] = { { image0, len0 }, { image1, len1 } };
    ANSWERED(model_tick(&m, lent[0], lent[1]));
}

uint32_t bel_note_change(uint8_t *record, size_t len, uint8_t drive) { ANSWERED(model_note_change(&m, drive)); }

uint64_t bel_ticks(uint8_t *record, size_t len, uint8_t *image0, size_t len0, uint8_t *image1, size_t len1, uint32_t n)
{
    struct model m;
    if (!load(&m, record, len))
        return NO_RECORD;
    uint64_t word = model_ticks(&m, (struct image){ image0, len0 }, (struct image){ image1, len1 }, n);
    store(&m, record);
    return word;
}

/* ---- the block service ---- */

uint32_t bel_blocks(const uint8_t *image, size_t len) { return model_blocks((struct image){ (uint8_t *)image, len }); }

uint32_t bel_block_read(uint8_t *record, size_t len, uint8_t *image0, size_t len0, uint8_t *image1, size_t len1,
                        uint8_t drive, uint32_t block, uint8_t *out, size_t out_len, uint8_t *status, size_t status_len)
{
    struct image lent[2] = { { image0, len0 }, { image1, len1 } };
    ANSWERED(model_block_read(&m, lent[0], lent[1], drive, block, out, out_len, status, status_len, NULL));
}

uint32_t bel_block_write(uint8_t *record, size_t len, uint8_t *image0, size_t len0, uint8_t *image1, size_t len1,
                         uint8_t drive, uint32_t block, const uint8_t *data, size_t data_len, uint8_t *status,
                         size_t status_len)
{
    struct image lent[2] = { { image0, len0 }, { image1, len1 } };
    ANSWERED(model_block_write(&m, lent[0], lent[1], drive, block, data, data_len, status, status_len, NULL));
}

uint32_t bel_image_size(uint8_t cylinders, uint8_t heads, uint8_t slots, uint8_t n)
{
    return model_image_size(cylinders, heads, slots, n);
}

uint32_t bel_image_blank(uint8_t *image, size_t len, uint8_t cylinders, uint8_t heads, uint8_t slots, uint8_t n,
                         uint8_t protect, uint8_t fill)
{
    const uint8_t header[HEADER_BYTES] = { cylinders, heads, slots, n, protect };
    return model_image_blank((struct image){ image, len }, header, fill);
}

/* ---- the judge ---- */

uint64_t bel_judge(const uint8_t *image, size_t len) { return model_judge((struct image){ (uint8_t *)image, len }); }

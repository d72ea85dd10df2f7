/* An independent model of document 01, as the requests of 02 amend it, for tests only. It was written from the
 * documents and their settled readings, without looking at the library, so that a difference between the two shows
 * where one of them misread a sentence.
 *
 * The state is a plain struct that tests may look into. Each call returns the library's word: value in bits 0 to 7,
 * refusal in 8 to 15, INT in 16, DRQ in 17. The model has no refusal 4: no state reached by calls earns it. */
#ifndef MODEL_H
#define MODEL_H

#include <stdbool.h>
#include <stddef.h>
#include <stdint.h>

enum { DRIVES = 4, LAST_HEAD = 81, FIFO_SIZE = 16, LONGEST_COMMAND = 9, LONGEST_RESULT = 7, LAST_WAIT = 64 };

/* the five bytes of an image's header, in the file's order */
enum { CYLINDERS, HEADS, SLOTS, SIZE_N, PROTECT, HEADER_BYTES };

enum phase { IDLE, GATHERING, EXECUTING, ANSWERING };

enum command {
    UNKNOWN, READ_DATA, READ_DELETED, WRITE_DATA, WRITE_DELETED, READ_ID, FORMAT, RECALIBRATE, SENSE_INTERRUPT, SPECIFY,
    SENSE_DRIVE, SEEK, VERSION, CONFIGURE, COMMANDS
};

/* what the next tick of an execution does */
enum stage {
    FIRST_TESTS,   /* the tests of the first tick */
    TURN_TESTS,    /* the tests of the tick after an MT turn */
    SEARCHING,     /* one slot looked at; Read ID too */
    READING,       /* one byte to the FIFO */
    DRAINING,      /* a look whether the host has emptied the FIFO */
    AWAITING,      /* Write and Format: a wait for the sector's first byte; the tick that finds it stores the first mark */
    WRITING,       /* one byte of the sector, then the good mark */
    FORMATTING_ID, /* one of C H R N */
    FILLING,       /* one fill byte, then mark 1 */
    CLEARING,      /* mark 0 to a slot after SC */
    STAGES
};

struct image { uint8_t *bytes; size_t length; };

struct address { uint8_t c, h, r, n; };

struct drive {
    uint8_t head;       /* where the head is; PCN is where the controller believes it to be */
    uint8_t pcn;
    uint8_t report;     /* ST0 of a pending report; 0: none */
    bool busy;
    bool changed;
    bool stepping;
    bool recalibrating;
    bool inward;
    uint8_t target;     /* PCN at the end */
    uint8_t steps;      /* still due */
    uint16_t countdown; /* ticks to the next step */
};

struct fifo { uint8_t bytes[FIFO_SIZE]; uint8_t first, count; bool asks; };

struct execution {
    enum command command;
    enum stage stage;
    bool mt, sk, tc;
    uint8_t drive, side;
    struct address id;            /* the sector in hand */
    uint8_t eot;
    uint8_t sc, fill, done;       /* Format: slots asked for, fill byte, slots done */
    uint8_t header[HEADER_BYTES]; /* as the first tick met it */
    uint8_t slot;                 /* looked at next, or in hand */
    uint8_t passes;
    bool met, other_c, bad_c;     /* of this search: an ID, one with another C, one with FF */
    uint8_t mark;                 /* as the match saw it */
    uint16_t moved;               /* ticks of the sector's bytes so far */
    uint8_t wait;
    uint8_t st1, st2;             /* what stands in every later end */
};

struct model {
    uint8_t dor, tdr, rate, specify[2], fifothr, pretrk;
    bool eis, efifo, poll;
    struct drive drives[DRIVES];
    enum phase phase;
    uint8_t command[LONGEST_COMMAND], gathered, due;
    uint8_t result[LONGEST_RESULT], results, taken;
    bool signals;                 /* this result turns INT on */
    struct execution execution;
    struct fifo fifo;
};

uint32_t model_power_on(struct model *m, uint8_t head0, uint8_t head1);
uint32_t model_read_port(struct model *m, uint8_t offset);
uint32_t model_write_port(struct model *m, uint8_t offset, uint8_t byte);
uint32_t model_dma_read(struct model *m, bool tc);
uint32_t model_dma_write(struct model *m, uint8_t byte, bool tc);
uint32_t model_tick(struct model *m, struct image image0, struct image image1);
uint32_t model_note_change(struct model *m, uint8_t drive);

/* up to n ticks, stopping after the first that changes a line: the last answer below, the ticks made above */
uint64_t model_ticks(struct model *m, struct image image0, struct image image1, uint32_t n);

/* for the random host: MSR, and whether an image with its motor on would be mounted */
uint8_t model_msr(const struct model *m);
bool model_image_good(struct image image);
size_t model_track_size(const uint8_t header[HEADER_BYTES]);

#endif

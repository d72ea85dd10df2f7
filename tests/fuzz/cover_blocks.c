#include "cover_blocks.h"

#include <stdio.h>

#include "rows.h"

static struct rows rows;
static unsigned long late;

static void row(const char *group, const char *name, bool met) { rows_count(&rows, group, name, met); }

/* ---- the block asked for, as the call finds it ---- */

static struct {
    bool fits, lent;      /* the drive's image: it has blocks; it has bytes */
    uint32_t blocks, size;
    uint8_t header[HEADER_BYTES];
    struct block_place place;
    unsigned matches;     /* slots of the track with the block's address */
    uint8_t mark;         /* the first one's */
    unsigned slot;
    bool motor;
} target;

static const uint8_t *target_track(struct image image)
{
    const uint8_t *header = image.bytes + 3;
    size_t track = (size_t)target.place.cylinder * header[HEADS] + target.place.side;
    return image.bytes + 8 + track * model_track_size(header);
}

static void find_matches(const uint8_t *track)
{
    for (unsigned k = 0; k < target.header[SLOTS]; k++) {
        const uint8_t *slot = track + 5 + k * (5 + target.size);
        bool id = slot[0] >= 1 && slot[0] <= 5 && slot[1] == target.place.cylinder && slot[2] == target.place.side &&
                  slot[3] == target.place.sector && slot[4] == target.header[SIZE_N];
        if (id && target.matches++ == 0) {
            target.mark = slot[0];
            target.slot = k;
        }
    }
}

void cover_block_event(const struct world *w, const struct event *e)
{
    if (e->call != BLOCK_READ && e->call != BLOCK_WRITE)
        return;
    target.fits = target.lent = target.motor = false;
    target.blocks = target.size = target.matches = target.mark = target.slot = 0;
    if (e->a > 1)
        return;
    struct image image = w->ours[e->a];
    target.blocks = model_blocks(image);
    target.fits = target.blocks > 0;
    target.lent = image.length > 0;
    target.motor = w->model.dor >> (4 + e->a) & 1;
    if (!target.fits)
        return;
    for (unsigned i = 0; i < HEADER_BYTES; i++)
        target.header[i] = image.bytes[3 + i];
    target.size = 128u << target.header[SIZE_N];
    if (e->n >= target.blocks)
        return;
    target.place = model_block_place(target.header, e->n);
    find_matches(target_track(image));
}

/* ---- how it ended ---- */

static bool ended(const struct moment *t, uint8_t ic, uint8_t st1, uint8_t st2)
{
    return (t->word & 0xFF00) == 0 && (t->status[0] & 0xC0) == ic && t->status[1] == st1 && t->status[2] == st2;
}

static void search_rows(const char *g, const struct moment *t, bool is)
{
    row(g, "no ID on the track", is && ended(t, 0x40, 0x01, 0x00));
    row(g, "not found, C right", is && ended(t, 0x40, 0x04, 0x00));
    row(g, "not found, another C", is && ended(t, 0x40, 0x04, 0x10));
    row(g, "not found, C FF", is && ended(t, 0x40, 0x04, 0x02));
    row(g, "not found, both", is && ended(t, 0x40, 0x04, 0x12));
}

static void end_rows(const struct moment *t)
{
    const char *r = "Block read", *w = "Block write";
    bool reads = t->event->call == BLOCK_READ, good = t->word & 1, twice = target.matches > 1;
    bool late_slot = target.slot + 1 != target.place.sector;
    row(r, "normal", reads && ended(t, 0x00, 0x00, 0x00));
    row(r, "deleted", reads && ended(t, 0x00, 0x00, 0x40));
    row(r, "broken", reads && ended(t, 0x40, 0x20, 0x20));
    row(r, "broken and deleted", reads && ended(t, 0x40, 0x20, 0x60));
    row(r, "an ID without data", reads && ended(t, 0x40, 0x01, 0x01));
    row(r, "address doubled", reads && good && twice);
    row(r, "not in its sector's place", reads && good && late_slot);
    row(r, "of a protected disk", reads && good && target.header[PROTECT] == 1);
    search_rows(r, t, reads);
    row(w, "normal", !reads && good && target.mark == 1);
    row(w, "over a deleted sector", !reads && good && target.mark == 2);
    row(w, "over a broken one", !reads && good && target.mark == 3);
    row(w, "over a broken deleted one", !reads && good && target.mark == 4);
    row(w, "over an ID without data", !reads && good && target.mark == 5);
    row(w, "address doubled", !reads && good && twice);
    row(w, "not in its sector's place", !reads && good && late_slot);
    row(w, "protected", !reads && ended(t, 0x40, 0x02, 0x00));
    search_rows(w, t, !reads);
}

/* ---- where it lay ---- */

static void place_rows(const struct moment *t)
{
    const char *g = "Block done, where";
    bool good = t->word & 1;
    const uint8_t *header = target.header;
    row(g, "drive 0", good && t->event->a == 0);
    row(g, "drive 1", good && t->event->a == 1);
    row(g, "side 1", good && target.place.side == 1);
    row(g, "cylinder above 0", good && target.place.cylinder > 0);
    row(g, "cylinder above 2", good && target.place.cylinder > 2);
    row(g, "side 1 of a cylinder above 0, sector above 1",
        good && target.place.side == 1 && target.place.cylinder > 0 && target.place.sector > 1);
    row(g, "the last block", good && t->event->n + 1 == target.blocks);
    row(g, "N 2", good && header[SIZE_N] == 2);
    row(g, "N 3", good && header[SIZE_N] == 3);
    row(g, "more than 5 slots a track", good && header[SLOTS] > 5);
    row(g, "a status of more than seven bytes", good && t->event->status > STATUS_BYTES);
}

/* ---- the record handed in ---- */

static void record_rows(const struct moment *t)
{
    const char *g = "Block done, record handed in";
    const struct model *m = t->before;
    const struct execution *x = &m->execution;
    bool done = (t->word & 0xFF00) == 0, held = !(m->dor & 4);
    bool executes = done && m->phase == EXECUTING, other = m->dor & (0x20 >> (t->event->a & 1));
    bool stepping = false, report = false;
    for (unsigned d = 0; d < DRIVES; d++) {
        stepping = stepping || m->drives[d].stepping;
        report = report || m->drives[d].report;
    }
    uint8_t head = m->drives[t->event->a & 1].head;
    row(g, "idle", done && m->phase == IDLE && !held);
    row(g, "held in reset", done && held);
    row(g, "held in reset, heads not at 0", done && held && head > 0);
    row(g, "command bytes due", done && m->phase == GATHERING);
    row(g, "results waiting", done && m->phase == ANSWERING);
    row(g, "before an execution's first tick", executes && x->stage == FIRST_TESTS);
    row(g, "searching", executes && x->stage == SEARCHING);
    row(g, "reading", executes && x->stage == READING);
    row(g, "bytes to be taken", executes && x->stage == DRAINING);
    row(g, "writing", executes && x->stage == WRITING);
    row(g, "in the rest of a sector after a late host", executes && x->st1 != 0);
    row(g, "formatting", executes && x->command == FORMAT && x->stage != FIRST_TESTS);
    row(g, "bytes in the FIFO", done && m->fifo.count > 1);
    row(g, "stepping", done && stepping);
    row(g, "a report pending", done && report);
    row(g, "FIFO on", done && !m->efifo);
    row(g, "POLL 1", done && m->poll && t->made->reports == 0);
    row(g, "POLL 0", done && !m->poll && t->made->reports == 4);
    row(g, "non-DMA", done && (m->specify[1] & 1));
    row(g, "gate off", done && !(m->dor & 8));
    row(g, "motor off", done && !target.motor);
    row(g, "the other drive's motor on", done && other);
    row(g, "the other drive's motor off", done && !other);
    row(g, "motors 2 and 3 on", done && (m->dor & 0xC0) == 0xC0);
    row(g, "head at 79", done && head == 79 && t->made->recalibrations == 1);
    row(g, "head at 80, two Recalibrates", done && head == 80 && t->made->recalibrations == 2);
    row(g, "head at 81, two Recalibrates", done && head == 81 && t->made->recalibrations == 2);
    row(g, "head not at PCN", done && head != m->drives[t->event->a & 1].pcn);
    row(g, "change flag cleared", done && m->drives[t->event->a].changed && !t->after->drives[t->event->a].changed);
}

/* ---- refusals, and what else was wrong in the same call ---- */

static void refusal_rows(const struct moment *t)
{
    const char *g = "Block refused";
    const struct event *e = t->event;
    unsigned refusal = t->word >> 8 & 0xFF;
    bool one = refusal == 1, two = refusal == 2, three = refusal == 3;
    bool wrong_slice = e->slice != target.size, wrong_status = e->status < STATUS_BYTES;
    row(g, "1, a drive above 1", one && e->a > 1);
    row(g, "1, no image", one && e->a < 2 && !target.lent);
    row(g, "1, an image that does not fit", one && target.lent && !target.fits);
    row(g, "1, the same with its motor on", one && target.lent && !target.fits && target.motor);
    row(g, "1, the block after the last", one && target.fits && e->n == target.blocks);
    row(g, "1, far past the end", one && target.fits && e->n > 1u << 16);
    row(g, "1 before 2", one && target.fits && wrong_slice);
    row(g, "1 before 3", one && target.fits && wrong_status);
    row(g, "2, a byte too few", two && e->slice + 1u == target.size);
    row(g, "2, a byte too many", two && e->slice == target.size + 1);
    row(g, "2, no byte", two && e->slice == 0);
    row(g, "2, a sector of another N", two && (e->slice == 2 * target.size || e->slice * 2u == target.size));
    row(g, "2 before 3", two && wrong_status);
    row(g, "3, six bytes", three && e->status == STATUS_BYTES - 1);
    row(g, "3, no byte", three && e->status == 0);
    row(g, "read", refusal && e->call == BLOCK_READ);
    row(g, "write", refusal && e->call == BLOCK_WRITE);
    row(g, "held in reset", refusal && !(t->before->dor & 4));
    row(g, "in an execution", refusal && t->before->phase == EXECUTING);
    row(g, "INT on", refusal && (t->word & 1u << 16));
    row(g, "DRQ on", refusal && (t->word & 1u << 17));
}

void cover_block(const struct moment *t)
{
    rows.place = 0;
    late += t->made->late;
    end_rows(t);
    place_rows(t);
    record_rows(t);
    refusal_rows(t);
}

unsigned cover_blocks_print(void)
{
    unsigned never = rows_print(&rows);
    printf("Block waits\n%10lu  longer than 79 x 63, 81 x 63 or End's ticks\n", late);
    return never + (late > 0) + (rows.count == 0);
}

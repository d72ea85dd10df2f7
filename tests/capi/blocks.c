/* The block service as a firmware calls it: the refusals in their order, blocks written and read back, a blank disk, and what
 * is left of an import that is cut short at any tick. Prints nothing but its last line. */
#include <stdio.h>
#include <stdlib.h>
#include <string.h>

#include "beleduritz.h"

#define CHECK(what)                                                              \
  do {                                                                           \
    if (!(what)) {                                                               \
      fprintf(stderr, "%s:%d: %s\n", __FILE__, __LINE__, #what);                 \
      exit(1);                                                                   \
    }                                                                            \
  } while (0)

/* Two cylinders, two sides, two slots of 256 bytes: eight blocks. */
enum { CYLINDERS = 2, HEADS = 2, SLOTS = 2, N = 1, SECTOR = 256, BLOCKS = CYLINDERS * HEADS * SLOTS };
enum { SLOT = 5 + SECTOR, TRACK = 5 + SLOTS * SLOT, IMAGE = 8 + CYLINDERS * HEADS * TRACK + 3 };
enum { FILL = 0xF6, STATUS = 7, BEHIND = 3 };

static uint8_t record[BEL_RECORD_MAX];
static uint8_t disks[2][IMAGE];
static uint8_t status[STATUS + BEHIND]; /* a few bytes more, which stay */

/* what block b holds once it is written for the time-th time */
static void make_block(uint8_t *bytes, uint32_t b, int time) {
  for (uint32_t i = 0; i < SECTOR; i++) bytes[i] = (uint8_t)(i * 7 + b * 31 + (uint32_t)time * 101 + 1);
}

static void blank(uint8_t *image) {
  CHECK(bel_image_blank(image, IMAGE, CYLINDERS, HEADS, SLOTS, N, 0, FILL) == IMAGE);
}

static uint32_t read_block(uint8_t drive, uint32_t b, uint8_t *out) {
  memset(status, 0xA5, sizeof status);
  const uint32_t word = bel_block_read(record, sizeof record, disks[0], IMAGE, disks[1], IMAGE, drive, b, out, SECTOR,
                                       status, sizeof status);
  for (int i = STATUS; i < STATUS + BEHIND; i++) CHECK(status[i] == 0xA5);
  return word;
}

static uint32_t write_block(uint8_t drive, uint32_t b, const uint8_t *data) {
  memset(status, 0xA5, sizeof status);
  const uint32_t word = bel_block_write(record, sizeof record, disks[0], IMAGE, disks[1], IMAGE, drive, b, data, SECTOR,
                                        status, sizeof status);
  for (int i = STATUS; i < STATUS + BEHIND; i++) CHECK(status[i] == 0xA5);
  return word;
}

static int status_is(uint8_t st0, uint8_t st1, uint8_t st2, uint8_t c, uint8_t h, uint8_t r) {
  const uint8_t bytes[STATUS] = {st0, st1, st2, c, h, r, N};
  return memcmp(status, bytes, STATUS) == 0;
}

/* where the mark of the slot of block b stands, as docs/IMAGE.md says */
static size_t mark_of(uint32_t b) { return 8 + b / SLOTS * TRACK + 5 + b % SLOTS * SLOT; }

/* ---- the image maker ---- */

static size_t tag(uint8_t *at, uint8_t kind, size_t length) {
  at[0] = kind;
  at[1] = (uint8_t)(length >> 8);
  at[2] = (uint8_t)length;
  return 3;
}

/* docs/IMAGE.md's make.py, in C */
static size_t laid_out(uint8_t *to, int cylinders, int heads, int slots, int n, int protect, int fill) {
  const size_t sector = (size_t)128 << n;
  size_t at = tag(to, 1, 5);
  const uint8_t header[5] = {(uint8_t)cylinders, (uint8_t)heads, (uint8_t)slots, (uint8_t)n, (uint8_t)protect};
  memcpy(to + at, header, 5);
  at += 5;
  for (int c = 0; c < cylinders; c++)
    for (int h = 0; h < heads; h++) {
      at += tag(to + at, 2, 2 + (size_t)slots * (5 + sector));
      to[at++] = (uint8_t)c;
      to[at++] = (uint8_t)h;
      for (int r = 1; r <= slots; r++) {
        const uint8_t id[5] = {1, (uint8_t)c, (uint8_t)h, (uint8_t)r, (uint8_t)n};
        memcpy(to + at, id, 5);
        memset(to + at + 5, fill, sector);
        at += 5 + sector;
      }
    }
  return at + tag(to + at, 3, 0);
}

static uint32_t size_by_the_document(int c, int h, int s, int n) {
  if (c < 1 || c > 82 || h < 1 || h > 2 || s < 1 || s > 36 || n < 1 || n > 3) return 0;
  return (uint32_t)(8 + c * h * (5 + s * (5 + (128 << n))) + 3);
}

static void sizes(void) {
  for (int c = 0; c < 256; c += c < 90 ? 1 : 33)
    for (int h = 0; h < 256; h += h < 5 ? 1 : 50)
      for (int s = 0; s < 256; s += s < 40 ? 1 : 43)
        for (int n = 0; n < 256; n += n < 6 ? 1 : 50)
          CHECK(bel_image_size((uint8_t)c, (uint8_t)h, (uint8_t)s, (uint8_t)n) == size_by_the_document(c, h, s, n));
  CHECK(bel_image_size(80, 2, 18, 2) == 1489771 && bel_image_size(1, 1, 1, 1) == 277);
}

static int all(const uint8_t *bytes, size_t count, uint8_t value) {
  for (size_t i = 0; i < count; i++)
    if (bytes[i] != value) return 0;
  return 1;
}

static void blank_disks(void) {
  static const uint8_t disk[7][4] = {{1, 1, 1, 1}, {80, 2, 18, 2}, {82, 2, 36, 3}, {3, 2, 5, 1},
                                     {40, 1, 9, 2}, {1, 2, 36, 1}, {82, 1, 1, 3}};
  for (int i = 0; i < 7; i++) {
    const uint8_t c = disk[i][0], h = disk[i][1], s = disk[i][2], n = disk[i][3], protect = i % 2;
    const uint32_t size = bel_image_size(c, h, s, n);
    uint8_t *made = malloc(size + 1), *wanted = malloc(size);
    CHECK(made && wanted);
    memset(made, 0x5A, size + 1);
    CHECK(bel_image_blank(made, size - 1, c, h, s, n, protect, 9) == 0);
    CHECK(bel_image_blank(made, size + 1, c, h, s, n, protect, 9) == 0);
    CHECK(bel_image_blank(made, size, c, h, s, n, 2, 9) == 0 && bel_image_blank(made, size, c, h, s, n, 255, 9) == 0);
    CHECK(bel_image_blank(made, size, 0, h, s, n, protect, 9) == 0 && bel_image_blank(made, size, 83, h, s, n, 0, 9) == 0);
    CHECK(bel_image_blank(made, size, c, 3, s, n, protect, 9) == 0 && bel_image_blank(made, size, c, h, 37, n, 0, 9) == 0);
    CHECK(bel_image_blank(made, size, c, h, s, 0, protect, 9) == 0 && bel_image_blank(made, size, c, h, s, 4, 0, 9) == 0);
    CHECK(bel_image_blank(made, 0, 0, 0, 0, 0, 0, 9) == 0);
    CHECK(all(made, size + 1, 0x5A));
    CHECK(bel_image_blank(made, size, c, h, s, n, protect, (uint8_t)(FILL + i)) == size && made[size] == 0x5A);
    CHECK(laid_out(wanted, c, h, s, n, protect, FILL + i) == size && memcmp(made, wanted, size) == 0);
    CHECK(bel_blocks(made, size) == (uint32_t)c * h * s);
    CHECK(bel_blocks(made, size + 1) == 0 && bel_blocks(made, size - 1) == 0 && bel_blocks(made, 0) == 0);
    made[2] = 6;
    CHECK(bel_blocks(made, size) == 0);
    free(made);
    free(wanted);
  }
}

/* ---- refusals: nothing of what is lent changes ---- */

/* one call each way; the image of drive 0 is len0 bytes long, that of drive 1 is there */
static void refused(uint8_t *r, size_t len, size_t len0, uint8_t drive, uint32_t b, size_t slice, size_t told,
                    uint32_t word) {
  uint8_t out[2 * SECTOR], out_was[2 * SECTOR], r_was[BEL_RECORD_MAX], disks_were[2][IMAGE], status_was[sizeof status];
  memset(out, 0x3C, sizeof out);
  memset(status, 0xA5, sizeof status);
  memcpy(out_was, out, sizeof out);
  memcpy(r_was, r, len);
  memcpy(disks_were, disks, sizeof disks);
  memcpy(status_was, status, sizeof status);
  CHECK(bel_block_read(r, len, disks[0], len0, disks[1], IMAGE, drive, b, out, slice, status, told) == word);
  CHECK(bel_block_write(r, len, disks[0], len0, disks[1], IMAGE, drive, b, out, slice, status, told) == word);
  CHECK(memcmp(out, out_was, sizeof out) == 0 && memcmp(r, r_was, len) == 0);
  CHECK(memcmp(disks, disks_were, sizeof disks) == 0 && memcmp(status, status_was, sizeof status) == 0);
}

static void refused_here(size_t len0, uint8_t drive, uint32_t b, size_t slice, size_t told, uint32_t number) {
  const uint32_t lines = bel_read_port(record, sizeof record, 4) & 0x30000;
  refused(record, sizeof record, len0, drive, b, slice, told, number << 8 | lines);
}

/* in their order: each with every later one in the same call */
static void refusals_now(void) {
  uint8_t none[BEL_RECORD_MAX] = {0};
  refused(none, sizeof none, IMAGE, 0, 0, SECTOR, STATUS, BEL_BLOCK_RECORD << 8);
  refused(none, sizeof none, IMAGE, 9, BLOCKS, 1, 0, BEL_BLOCK_RECORD << 8);
  refused(record, bel_record_size() - 1, IMAGE, 0, 0, SECTOR, STATUS, BEL_BLOCK_RECORD << 8);
  refused_here(IMAGE, 0, BLOCKS, SECTOR, STATUS, BEL_BLOCK_END);
  refused_here(IMAGE, 0, BLOCKS, 1, 0, BEL_BLOCK_END);
  refused_here(IMAGE, 1, 0xFFFFFFFF, SECTOR, STATUS, BEL_BLOCK_END);
  refused_here(IMAGE, 2, 0, SECTOR, STATUS, BEL_BLOCK_END);
  refused_here(IMAGE, 255, 0, SECTOR, STATUS, BEL_BLOCK_END);
  refused_here(IMAGE - 1, 0, 0, SECTOR, STATUS, BEL_BLOCK_END);
  refused_here(0, 0, 0, SECTOR, STATUS, BEL_BLOCK_END);
  refused_here(0, 0, 0, 0, 0, BEL_BLOCK_END);
  refused_here(IMAGE, 0, 0, SECTOR - 1, STATUS, BEL_BLOCK_SLICE);
  refused_here(IMAGE, 0, 0, SECTOR + 1, STATUS, BEL_BLOCK_SLICE);
  refused_here(IMAGE, 1, BLOCKS - 1, 2 * SECTOR, 0, BEL_BLOCK_SLICE);
  refused_here(IMAGE, 1, BLOCKS - 1, 0, STATUS, BEL_BLOCK_SLICE);
  for (size_t told = 0; told < STATUS; told++) refused_here(IMAGE, 0, 0, SECTOR, told, BEL_BLOCK_STATUS);
}

static void refusals(void) {
  blank(disks[0]);
  blank(disks[1]);
  bel_power_on(record, sizeof record, 3, 4);
  refusals_now(); /* held in reset, no motor on */
  bel_write_port(record, sizeof record, 2, 0x3C);
  refusals_now(); /* both motors on; INT: the reset's reports */
  const uint8_t read_data[9] = {0x46, 0, 0, 0, 1, N, SLOTS, 0x1B, 0xFF};
  uint8_t out[SECTOR];
  CHECK(BEL_GOOD(read_block(0, 0, out)));
  for (int i = 0; i < 9; i++) bel_write_port(record, sizeof record, 5, read_data[i]);
  while (!BEL_DRQ(bel_tick(record, sizeof record, disks[0], IMAGE, disks[1], IMAGE))) {}
  refusals_now(); /* in a read, DRQ on */
}

/* ---- written and read back ---- */

static void round_trips(void) {
  uint8_t data[SECTOR], out[SECTOR], were[2][IMAGE];
  blank(disks[0]);
  blank(disks[1]);
  bel_power_on(record, sizeof record, 81, 80);
  for (uint8_t drive = 0; drive < 2; drive++)
    for (uint32_t b = 0; b < BLOCKS; b++) {
      const uint8_t sector = (uint8_t)(b % 2 + 1), side = (uint8_t)(b / 2 % 2), cylinder = (uint8_t)(b / 4);
      make_block(data, b, drive);
      memcpy(were, disks, sizeof disks);
      CHECK(write_block(drive, b, data) == 1);
      /* the address is the next one: R + 1, at EOT R 1 and C + 1 */
      CHECK(status_is((uint8_t)(side * 4 + drive), 0, 0, cylinder + (sector == SLOTS), side, sector == SLOTS ? 1 : 2));
      memcpy(were[drive] + mark_of(b) + 5, data, SECTOR);
      CHECK(memcmp(were, disks, sizeof disks) == 0);
      memset(out, 0, SECTOR);
      CHECK(read_block(drive, b, out) == 1 && memcmp(out, data, SECTOR) == 0);
      CHECK(status_is((uint8_t)(side * 4 + drive), 0, 0, cylinder + (sector == SLOTS), side, sector == SLOTS ? 1 : 2));
      CHECK(memcmp(were, disks, sizeof disks) == 0);
      CHECK(BEL_VALUE(bel_read_port(record, sizeof record, 2)) == ((drive ? 0x30 : 0x10) | 0x0C | drive));
    }
}

/* the record as a console leaves it anywhere: FIFO on, POLL 1, non-DMA, and a write under way for so many ticks */
static void in_mid_command(void) {
  static const uint8_t bytes[3 + 4 + 9] = {0x03, 0x00, 0x01, 0x13, 0x00, 0x17, 0x00, 0x45, 0x01, 0, 0, 1, N, 2, 0x1B, 0xFF};
  uint8_t out[SECTOR], were[IMAGE];
  for (unsigned sent = 0; sent < sizeof bytes + 20; sent++) {
    blank(disks[0]);
    blank(disks[1]);
    bel_power_on(record, sizeof record, 0, 0);
    bel_write_port(record, sizeof record, 2, 0x3C);
    for (unsigned i = 0; i < sent; i++) {
      if (i < sizeof bytes) bel_write_port(record, sizeof record, 5, bytes[i]);
      if (i >= sizeof bytes) bel_tick(record, sizeof record, disks[0], IMAGE, disks[1], IMAGE);
      if (i >= sizeof bytes) bel_write_port(record, sizeof record, 5, 0xEE);
    }
    memcpy(were, disks[1], IMAGE);
    memset(out, 0, SECTOR);
    CHECK(read_block(0, BLOCKS - 1, out) == 1 && all(out, SECTOR, FILL) && status_is(0x04, 0, 0, 2, 1, 1));
    CHECK(memcmp(were, disks[1], IMAGE) == 0); /* the console's write goes no further */
    CHECK(BEL_VALUE(bel_read_port(record, sizeof record, 4)) == 0x80);
  }
}

/* each mark, and an address that is not there */
static void other_sectors(void) {
  uint8_t out[SECTOR], kept[SECTOR], data[SECTOR];
  blank(disks[0]);
  memset(kept, 0x3C, SECTOR);
  memset(data, 0x77, SECTOR);
  for (uint8_t mark = 0; mark < 8; mark++) {
    disks[0][mark_of(5)] = mark;
    memcpy(out, kept, SECTOR);
    const uint32_t word = read_block(0, 5, out);
    const int came = mark >= 1 && mark <= 4;
    CHECK(word == (mark == 1 || mark == 2));
    CHECK(all(out, SECTOR, came ? FILL : 0x3C));
    if (mark == 1) CHECK(status_is(0x00, 0, 0, 2, 0, 1));
    if (mark == 2) CHECK(status_is(0x00, 0, 0x40, 1, 0, 2));
    if (mark == 3) CHECK(status_is(0x40, 0x20, 0x20, 1, 0, 2));
    if (mark == 4) CHECK(status_is(0x40, 0x20, 0x60, 1, 0, 2));
    if (mark == 5) CHECK(status_is(0x40, 0x01, 0x01, 1, 0, 2));
    if (mark == 0 || mark > 5) CHECK(status_is(0x40, 0x04, 0x00, 1, 0, 2));
  }
  for (uint8_t mark = 0; mark < 8; mark++) {
    blank(disks[0]);
    disks[0][mark_of(5)] = mark;
    const int there = mark >= 1 && mark <= 5;
    CHECK(write_block(0, 5, data) == (uint32_t)there);
    CHECK(disks[0][mark_of(5)] == (there ? 1 : mark) && all(disks[0] + mark_of(5) + 5, SECTOR, there ? 0x77 : FILL));
  }
  blank(disks[0]);
  disks[0][7] = 1; /* protected */
  CHECK(write_block(0, 5, data) == 0 && status_is(0x40, 0x02, 0x00, 1, 0, 2) && disks[0][mark_of(5)] == 1);
  CHECK(read_block(0, 5, out) == 1 && all(out, SECTOR, FILL));
}

/* ---- a cut at any tick of an import ---- */

static uint8_t card[IMAGE]; /* the disk as it was when power went */
static uint8_t old_blocks[BLOCKS][SECTOR], new_blocks[BLOCKS][SECTOR];
static unsigned long cuts, torn;

/* After the cut: power on, and every block is read. Blocks below b are new and those above it old; b is either, or it ends
 * with a data error. */
static void after_a_cut(uint32_t b) {
  static uint8_t last[IMAGE];
  uint8_t r[BEL_RECORD_MAX], out[SECTOR], told[STATUS], none[1];
  if (memcmp(last, card, IMAGE) == 0) return; /* nothing was stored since the last cut */
  memcpy(last, card, IMAGE);
  cuts++;
  CHECK(bel_judge(card, IMAGE) == 0); /* sound after every cut */
  bel_power_on(r, sizeof r, (uint8_t)(cuts % 82), 0);
  for (uint32_t k = 0; k < BLOCKS; k++) {
    const uint32_t word = bel_block_read(r, sizeof r, card, IMAGE, none, 0, 0, k, out, SECTOR, told, STATUS);
    const int is_old = memcmp(out, old_blocks[k], SECTOR) == 0, is_new = memcmp(out, new_blocks[k], SECTOR) == 0;
    if (k != b) CHECK(word == 1 && (k < b ? is_new : is_old));
    if (k == b && BEL_GOOD(word)) CHECK(word == 1 && (is_old || is_new));
    if (k == b && !BEL_GOOD(word)) {
      CHECK(word == 0 && (told[0] & 0xC0) == 0x40 && told[1] == 0x20 && told[2] == 0x20);
      torn++;
    }
  }
  CHECK(memcmp(last, card, IMAGE) == 0);
}

static uint32_t now;       /* the block at work */
static uint32_t last_word; /* of the last call */

/* power may go after each tick: the disk of drive 0 is copied */
static void tick(void) {
  last_word = bel_tick(record, sizeof record, disks[0], IMAGE, disks[1], IMAGE);
  memcpy(card, disks[0], IMAGE);
  after_a_cut(now);
}

static void put(uint8_t port, uint8_t byte) {
  last_word = bel_write_port(record, sizeof record, port, byte);
  CHECK(BEL_REFUSAL(last_word) == 0);
}

static uint8_t get(uint8_t port) {
  last_word = bel_read_port(record, sizeof record, port);
  CHECK(BEL_REFUSAL(last_word) == 0);
  return BEL_VALUE(last_word);
}

static uint8_t report(void) {
  put(5, 0x08);
  const uint8_t st0 = get(5);
  if (st0 != 0x80) get(5);
  return st0;
}

static uint8_t arrive(void) {
  do tick();
  while (!BEL_INT(last_word));
  return report();
}

/* the calls that bel_block_write stands for, one by one */
static void write_by_calls(uint32_t b, const uint8_t *data) {
  const uint8_t sector = (uint8_t)(b % SLOTS + 1), side = (uint8_t)(b / SLOTS % HEADS);
  const uint8_t cylinder = (uint8_t)(b / SLOTS / HEADS), dor = (get(2) & 0xF0) | 0x18;
  const uint8_t command[9] = {0x45, (uint8_t)(side * 4), cylinder, side, sector, N, SLOTS, 0x1B, 0xFF};
  put(2, dor);
  put(2, dor | 0x04);
  while (report() != 0x80) {}
  put(5, 0x03), put(5, 0xF0), put(5, 0x00);
  for (int again = 0; again < 2; again++) {
    put(5, 0x07), put(5, 0x00);
    if (arrive() != 0x70) break;
  }
  if (cylinder > 0) {
    put(5, 0x0F), put(5, 0x00), put(5, cylinder);
    arrive();
  }
  for (int i = 0; i < 9; i++) put(5, command[i]);
  int moved = 0;
  do {
    tick();
    for (; BEL_DRQ(last_word) && moved < SECTOR; moved++)
      last_word = bel_dma_write(record, sizeof record, data[moved], moved == SECTOR - 1);
  } while (!BEL_INT(last_word));
  for (int i = 0; i < STATUS; i++) status[i] = get(5);
}

/* drive 0 by single calls and, from the same records, drive 0 of another box by block calls: they are the same */
static void import_cut_anywhere(void) {
  uint8_t other[BEL_RECORD_MAX], other_disk[IMAGE], told[STATUS];
  blank(disks[0]);
  blank(disks[1]);
  bel_power_on(record, sizeof record, 80, 0);
  for (uint32_t b = 0; b < BLOCKS; b++) {
    make_block(old_blocks[b], b, 1);
    make_block(new_blocks[b], b, 2);
    CHECK(write_block(0, b, old_blocks[b]) == 1);
  }
  bel_power_on(record, sizeof record, 80, 0);
  bel_power_on(other, sizeof other, 80, 0);
  memcpy(other_disk, disks[0], IMAGE);
  for (now = 0; now < BLOCKS; now++) {
    write_by_calls(now, new_blocks[now]);
    CHECK(bel_block_write(other, sizeof other, other_disk, IMAGE, disks[1], IMAGE, 0, now, new_blocks[now], SECTOR, told,
                          STATUS) == 1);
    CHECK(memcmp(told, status, STATUS) == 0 && memcmp(other_disk, disks[0], IMAGE) == 0);
    CHECK(memcmp(other, record, bel_record_size()) == 0);
  }
  /* a mark, 256 bytes and a mark for each block: as many disks to be met after a cut, and the one before */
  CHECK(cuts == BLOCKS * (SECTOR + 2) + 1 && torn == BLOCKS * (SECTOR + 1));
}

int main(void) {
  sizes();
  blank_disks();
  refusals();
  round_trips();
  in_mid_command();
  other_sectors();
  import_cut_anywhere();
  printf("capi blocks: ok, %lu cuts\n", cuts);
  return 0;
}

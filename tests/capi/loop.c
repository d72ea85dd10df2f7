/* A firmware loop over the disk box, as an example and as a test: power-on, reset released, the four reports taken,
 * Configure, a sector of a small image read by DMA, one written, and the refusals. Prints nothing but its last line. */
#include <stdio.h>
#include <stdlib.h>
#include <string.h>

#include "beleduritz.h"

#define CHECK(what)                                                              \
  do {                                                                           \
    if (!(what)) {                                                               \
      fprintf(stderr, "%s:%d: %s\n", __FILE__, __LINE__, #what);                 \
      exit(1);                                                                   \
    }                                                                            \
  } while (0)

/* One cylinder, one side, two slots of 256 bytes. */
enum { SLOTS = 2, SECTOR = 256, SLOT = 5 + SECTOR, IMAGE = 8 + 5 + SLOTS * SLOT + 3 };

static uint8_t record[BEL_RECORD_MAX];
static uint8_t image[IMAGE];
static uint8_t none[1];

static size_t data_of(int slot) { return 8 + 5 + (size_t)slot * SLOT + 5; }

static void make_image(void) {
  const uint8_t header[8] = {1, 0, 5, 1, 1, SLOTS, 1, 0};
  const size_t track = SLOTS * SLOT + 2;
  memcpy(image, header, 8);
  image[8] = 2;
  image[9] = (uint8_t)(track >> 8);
  image[10] = (uint8_t)track;
  image[11] = 0;
  image[12] = 0;
  for (int k = 0; k < SLOTS; k++) {
    const uint8_t id[5] = {1, 0, 0, (uint8_t)(k + 1), 1};
    memcpy(image + data_of(k) - 5, id, 5);
    for (int i = 0; i < SECTOR; i++) image[data_of(k) + (size_t)i] = (uint8_t)(i * 7 + k);
  }
  image[IMAGE - 3] = 3;
}

static uint32_t put(uint8_t offset, uint8_t byte) {
  const uint32_t word = bel_write_port(record, sizeof record, offset, byte);
  CHECK(BEL_REFUSAL(word) == 0);
  return word;
}

static uint8_t get(uint8_t offset) {
  const uint32_t word = bel_read_port(record, sizeof record, offset);
  CHECK(BEL_REFUSAL(word) == 0);
  return BEL_VALUE(word);
}

static void command(const uint8_t *bytes, int n) {
  for (int i = 0; i < n; i++) {
    CHECK((get(4) & 0xC0) == 0x80);
    put(5, bytes[i]);
  }
}

static void results(uint8_t *bytes, int n) {
  for (int i = 0; i < n; i++) {
    CHECK((get(4) & 0xC0) == 0xC0);
    bytes[i] = get(5);
  }
}

/* Ticks until a line is on. */
static uint32_t wait_line(void) {
  for (;;) {
    const uint64_t ran = bel_ticks(record, sizeof record, image, sizeof image, none, 0, 100000);
    const uint32_t word = BEL_LAST(ran);
    CHECK(BEL_REFUSAL(word) == 0);
    CHECK(BEL_MADE(ran) > 0);
    if (BEL_INT(word) || BEL_DRQ(word)) return word;
  }
}

/* until DRQ is on; with no tick to make bel_ticks tells the lines as they stand */
static void wait_request(void) {
  uint32_t word = BEL_LAST(bel_ticks(record, sizeof record, image, sizeof image, none, 0, 0));
  if (!BEL_DRQ(word)) word = wait_line();
  CHECK(BEL_DRQ(word));
}

static void read_sector(uint8_t r, uint8_t *to) {
  const uint8_t bytes[9] = {0x46, 0, 0, 0, r, 1, r, 0x1B, 0xFF};
  uint8_t result[7];
  command(bytes, 9);
  for (int i = 0; i < SECTOR; i++) {
    wait_request();
    const uint32_t word = bel_dma_read(record, sizeof record, i == SECTOR - 1);
    CHECK(BEL_REFUSAL(word) == 0);
    to[i] = BEL_VALUE(word);
  }
  CHECK(BEL_INT(wait_line()));
  results(result, 7);
  CHECK(result[0] == 0 && result[1] == 0 && result[2] == 0);
  CHECK(result[5] == 1 && result[3] == 1);
}

static void write_sector(uint8_t r, const uint8_t *from) {
  const uint8_t bytes[9] = {0x45, 0, 0, 0, r, 1, r, 0x1B, 0xFF};
  uint8_t result[7];
  command(bytes, 9);
  for (int i = 0; i < SECTOR; i++) {
    wait_request();
    const uint32_t word = bel_dma_write(record, sizeof record, from[i], i == SECTOR - 1);
    CHECK(BEL_REFUSAL(word) == 0);
  }
  CHECK(BEL_INT(wait_line()));
  results(result, 7);
  CHECK(result[0] == 0 && result[1] == 0 && result[2] == 0);
}

/* Every call on bytes that are no record: 4 with both lines off, and nothing changes. */
static void all_refused(uint8_t *r, size_t len) {
  uint8_t before[BEL_RECORD_MAX], disk[IMAGE];
  memcpy(before, r, len);
  memcpy(disk, image, IMAGE);
  CHECK(bel_read_port(r, len, 4) == 0x400);
  CHECK(bel_write_port(r, len, 2, 0x1C) == 0x400);
  CHECK(bel_dma_read(r, len, 0) == 0x400);
  CHECK(bel_dma_write(r, len, 1, 0) == 0x400);
  CHECK(bel_note_change(r, len, 0) == 0x400);
  CHECK(bel_tick(r, len, image, sizeof image, none, 0) == 0x400);
  CHECK(bel_ticks(r, len, image, sizeof image, none, 0, 9) == 0x400);
  CHECK(memcmp(before, r, len) == 0 && memcmp(disk, image, IMAGE) == 0);
}

/* Memory that was never powered on, and a record of another version: the first byte is the layout's version. */
static void no_record(void) {
  uint8_t r[BEL_RECORD_MAX] = {0};
  all_refused(r, sizeof r);
  for (int version = 0; version < 256; version++) {
    memcpy(r, record, sizeof r);
    r[0] = (uint8_t)version;
    if (r[0] == record[0])
      CHECK(BEL_REFUSAL(bel_read_port(r, sizeof r, 4)) == 0);
    else
      all_refused(r, sizeof r);
  }
  CHECK(record[0] != 0);
}

static void refusals(void) {
  uint8_t before[BEL_RECORD_MAX];
  uint8_t short_record[BEL_RECORD_MAX];
  const uint32_t size = bel_record_size();
  memcpy(before, record, sizeof record);
  CHECK(BEL_REFUSAL(bel_read_port(record, sizeof record, 0)) == BEL_REFUSED_PORT);
  CHECK(BEL_REFUSAL(bel_read_port(record, sizeof record, 5)) == BEL_REFUSED_TURN);
  CHECK(BEL_REFUSAL(bel_dma_read(record, sizeof record, 0)) == BEL_REFUSED_LINE);
  CHECK(BEL_REFUSAL(bel_note_change(record, sizeof record, 2)) == BEL_REFUSED_DRIVE);
  CHECK(bel_read_port(record, size - 1, 4) == 0x400);
  CHECK(bel_power_on(record, size - 1, 0, 0) == 0x400);
  CHECK(bel_ticks(record, size - 1, image, sizeof image, none, 0, 5) == 0x400);
  CHECK(memcmp(before, record, sizeof record) == 0);
  no_record();
  memset(short_record, 0xFF, sizeof short_record);
  memcpy(before, short_record, sizeof before);
  CHECK(bel_read_port(short_record, sizeof short_record, 4) == 0x400);
  CHECK(memcmp(before, short_record, sizeof before) == 0);
  CHECK(BEL_REFUSAL(bel_power_on(short_record, sizeof short_record, 82, 0)) == BEL_REFUSED_HEAD);
  CHECK(bel_read_port(short_record, size, 2) == 0);
  for (size_t i = size; i < sizeof short_record; i++) CHECK(short_record[i] == 0xFF);
}

/* Random bytes for a record, and records with a byte spoilt: nothing traps, what is lent behind the record stays, a
 * refusal changes nothing, and one tick is the same by either call. */
static uint32_t seed = 1;

static uint8_t noise(void) {
  seed = seed * 1664525u + 1013904223u;
  return (uint8_t)(seed >> 24);
}

static uint32_t any_call(uint8_t *r, size_t len, uint8_t *disk) {
  const uint8_t x = noise(), y = noise();
  switch (noise() % 6) {
    case 0: return bel_read_port(r, len, x % 9);
    case 1: return bel_write_port(r, len, x % 9, y);
    case 2: return bel_dma_read(r, len, x & 1);
    case 3: return bel_dma_write(r, len, x, y & 1);
    case 4: return bel_note_change(r, len, x % 3);
    default: return bel_tick(r, len, disk, IMAGE, none, 0);
  }
}

static void damaged(void) {
  const uint32_t size = bel_record_size();
  uint8_t good[BEL_RECORD_MAX], r[BEL_RECORD_MAX], before[BEL_RECORD_MAX], other[BEL_RECORD_MAX];
  uint8_t disk[IMAGE], disk_before[IMAGE], disk_other[IMAGE];
  memcpy(good, record, sizeof good);
  for (int i = 0; i < 200000; i++) {
    const int kind = i % 4;
    for (size_t k = 0; k < sizeof r; k++) r[k] = kind == 0 ? noise() : kind == 1 ? noise() & 1 : good[k];
    if (kind < 2 && i % 32 > 1) r[0] = good[0]; /* most of them of this version, so that more than it is asked */
    if (kind == 2) r[noise() % size] = noise();
    memcpy(disk, image, IMAGE);
    memcpy(before, r, sizeof r);
    const uint32_t word = any_call(r, sizeof r, disk);
    CHECK(memcmp(before + size, r + size, sizeof r - size) == 0);
    CHECK(BEL_REFUSAL(word) == 0 || (memcmp(before, r, size) == 0 && memcmp(disk, image, IMAGE) == 0));
    if (kind == 3 && BEL_REFUSAL(word) == 0) memcpy(good, r, sizeof good);
    memcpy(other, r, sizeof r);
    memcpy(disk_before, disk, IMAGE);
    memcpy(disk_other, disk, IMAGE);
    const uint32_t tick = bel_tick(r, sizeof r, disk, IMAGE, none, 0);
    const uint64_t ticks = bel_ticks(other, sizeof other, disk_other, IMAGE, none, 0, 1);
    CHECK(BEL_LAST(ticks) == tick && BEL_MADE(ticks) == (BEL_REFUSAL(tick) == 0));
    CHECK(memcmp(r, other, sizeof r) == 0 && memcmp(disk, disk_other, IMAGE) == 0);
    int differ = 0;
    for (int k = 0; k < IMAGE; k++) differ += disk[k] != disk_before[k];
    CHECK(differ <= 1);
  }
}

int main(void) {
  const uint8_t configure[4] = {0x13, 0x00, 0x20, 0x00}; /* EFIFO 1, FIFOTHR 0: a byte at a time */
  uint8_t sector[SECTOR];
  make_image();
  CHECK(bel_record_size() <= BEL_RECORD_MAX);
  CHECK(bel_power_on(record, sizeof record, 0, 0) == 0);
  /* Not-reset, gate, motor 0: the reset is released, and four reports are waiting. */
  CHECK(BEL_INT(put(2, 0x1C)));
  for (uint8_t k = 0; k < 4; k++) {
    const uint8_t sense = 0x08;
    uint8_t result[2];
    command(&sense, 1);
    results(result, 2);
    CHECK(result[0] == 0xC0 + k && result[1] == 0);
  }
  command(configure, 4);
  refusals();
  for (uint8_t r = 1; r <= SLOTS; r++) {
    read_sector(r, sector);
    CHECK(memcmp(sector, image + data_of(r - 1), SECTOR) == 0);
  }
  for (int i = 0; i < SECTOR; i++) sector[i] = (uint8_t)(255 - i);
  write_sector(2, sector);
  CHECK(memcmp(sector, image + data_of(1), SECTOR) == 0);
  CHECK(image[data_of(1) - 5] == 1);
  memset(sector, 0, SECTOR);
  read_sector(2, sector);
  CHECK(sector[0] == 255 && sector[SECTOR - 1] == 0);
  damaged();
  puts("capi loop: ok");
  return 0;
}

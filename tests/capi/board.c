/* A board for the loop of docs/FIRMWARE.md, which stands in firmware.c: blocks are written, and power may go after each byte
 * that reaches the card. Then every block on the card is old or new but at most one, which ends with a data error. Prints
 * nothing but its last line. */
#include "firmware.c"

#include <stdio.h>
#include <stdlib.h>

#define CHECK(what)                                                              \
  do {                                                                           \
    if (!(what)) {                                                               \
      fprintf(stderr, "%s:%d: %s\n", __FILE__, __LINE__, #what);                 \
      exit(1);                                                                   \
    }                                                                            \
  } while (0)

/* One cylinder, two sides, two slots of 256 bytes: four blocks. */
enum { SECTOR = 256, BLOCKS = 4, IMAGE = 8 + 2 * (5 + 2 * (5 + SECTOR)) + 3 };

static uint8_t in_memory[2][IMAGE], known[2][IMAGE], card[2][IMAGE];
static uint8_t blocks[BLOCKS][2][SECTOR]; /* before and after */
static unsigned long stores, torn;

/* Power goes: what the card of drive 1 holds is read by another box. */
static void cut(void) {
  static uint8_t r[BEL_RECORD_MAX], disk[IMAGE], none[1];
  uint8_t out[SECTOR], status[7];
  int broken = 0;
  memcpy(disk, card[1], IMAGE);
  bel_power_on(r, sizeof r, 0, 0);
  for (uint32_t b = 0; b < BLOCKS; b++) {
    const uint32_t word = bel_block_read(r, sizeof r, none, 0, disk, IMAGE, 1, b, out, SECTOR, status, sizeof status);
    const int whole = memcmp(out, blocks[b][0], SECTOR) == 0 || memcmp(out, blocks[b][1], SECTOR) == 0;
    if (BEL_GOOD(word)) CHECK(word == 1 && whole && status[2] == 0);
    if (!BEL_GOOD(word)) CHECK(word == 0 && (status[0] & 0xC0) == 0x40 && status[1] == 0x20 && status[2] == 0x20);
    broken += !BEL_GOOD(word);
  }
  CHECK(broken <= 1);
  torn += (unsigned long)broken;
}

void board_store(int drive, size_t at, uint8_t byte) {
  CHECK(drive == 1 && at < IMAGE && card[drive][at] != byte);
  card[drive][at] = byte;
  stores++;
  cut();
}

void board_lines(int int_on, int drq_on) { CHECK(!int_on && !drq_on); }
void board_serve(void) {}
void board_fault(void) { CHECK(0); }

int main(void) {
  uint8_t out[SECTOR], status[7];
  for (int d = 0; d < 2; d++) {
    image[d] = in_memory[d];
    kept[d] = known[d];
    size[d] = IMAGE;
    CHECK(bel_image_blank(image[d], IMAGE, 1, 2, 2, 1, 0, 0xF6) == IMAGE);
    memcpy(kept[d], image[d], IMAGE);
    memcpy(card[d], image[d], IMAGE);
  }
  for (int b = 0; b < BLOCKS; b++) {
    memset(blocks[b][0], 0xF6, SECTOR);
    for (int i = 0; i < SECTOR; i++) blocks[b][1][i] = (uint8_t)(i % 128 + b);
  }
  on_power(0, 0);
  for (uint32_t b = 0; b < BLOCKS; b++) {
    CHECK(on_block_write(1, b, blocks[b][1], SECTOR, status));
    CHECK(memcmp(card[1], image[1], IMAGE) == 0 && memcmp(kept[1], image[1], IMAGE) == 0);
    CHECK(on_block_read(1, b, out, SECTOR, status) && memcmp(out, blocks[b][1], SECTOR) == 0);
  }
  /* a mark, 256 bytes and a mark for each block; all but the last leave it broken */
  CHECK(stores == BLOCKS * (SECTOR + 2) && torn == BLOCKS * (SECTOR + 1));
  printf("capi board: ok, %lu stores\n", stores);
  return 0;
}

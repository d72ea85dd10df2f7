/* The judge on the library and on the model, which compares each slot with every earlier one of its track, on sound
 * images: all of their tracks are looked at. The last three have as many slots as there can be, under one C, H and N,
 * each under its own C, and each under its own N with one R. Time is the processor's for one call, the best of a few
 * runs. */
#include <math.h>
#include <stdio.h>
#include <stdlib.h>
#include <string.h>
#include <time.h>

#include "beleduritz.h"
#include "judge.h"

enum { RUNS = 7 };

/* the byte of the address by which the slots of a track differ */
enum moving { BY_C = 1, BY_R = 3, BY_N = 4 };

struct disk { const char *name; uint8_t cylinders, heads, slots, n; enum moving moving; };

static void fail(const char *what)
{
    fprintf(stderr, "bench: %s\n", what);
    exit(1);
}

static struct image make_disk(const struct disk *d)
{
    struct image image = { NULL, bel_image_size(d->cylinders, d->heads, d->slots, d->n) };
    size_t slot = 5 + ((size_t)128 << d->n), track = 5 + d->slots * slot;
    image.bytes = malloc(image.length);
    if (!image.bytes || !bel_image_blank(image.bytes, image.length, d->cylinders, d->heads, d->slots, d->n, 0, 0xF6))
        fail("no image");
    for (unsigned t = 0; t < (unsigned)d->cylinders * d->heads; t++)
        for (unsigned k = 0; k < d->slots; k++) {
            uint8_t *at = image.bytes + 8 + t * track + 5 + k * slot;
            at[3] = 1;
            at[d->moving] = (uint8_t)(k + 1);
        }
    return image;
}

static uint64_t by_library(struct image image) { return bel_judge(image.bytes, image.length); }

/* calls go on for so long that the clock's own steps do not count */
static double seconds_of(uint64_t (*judge)(struct image), struct image image)
{
    unsigned long calls = 0;
    clock_t from = clock(), taken;
    do {
        if (judge(image) != 0)
            fail("a sound image is found unsound");
        calls++;
        taken = clock() - from;
    } while (taken < CLOCKS_PER_SEC / 50);
    return (double)taken / CLOCKS_PER_SEC / (double)calls;
}

static void measure(const struct disk *d)
{
    struct image image = make_disk(d);
    double lib = 1e9, mod = 1e9;
    /* by turns, so that a machine that is busy for a while is so for both */
    for (unsigned i = 0; i < RUNS; i++) {
        lib = fmin(lib, seconds_of(by_library, image));
        mod = fmin(mod, seconds_of(model_judge, image));
    }
    printf("| %-23s | %7lu | %11.1f | %9.1f | %5.2f | %13.1f |\n", d->name, (unsigned long)image.length, lib * 1e6,
           mod * 1e6, lib / mod, (double)image.length / lib / 1e9);
    fflush(stdout);
    free(image.bytes);
}

int main(void)
{
    static const struct disk disks[] = {
        { "80/2/18/N 2", 80, 2, 18, 2, BY_R },
        { "82/2/36/N 3, largest", 82, 2, 36, 3, BY_R },
        { "82/2/36/N 1, one C H N", 82, 2, 36, 1, BY_R },
        { "82/2/36/N 1, 36 C", 82, 2, 36, 1, BY_C },
        { "82/2/36/N 1, 36 N", 82, 2, 36, 1, BY_N },
    };
    printf("| judged, sound           | bytes   | library, us | model, us | ratio | library, B/ns |\n");
    printf("|---|---|---|---|---|---|\n");
    for (size_t i = 0; i < sizeof disks / sizeof disks[0]; i++)
        measure(&disks[i]);
    return 0;
}

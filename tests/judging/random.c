/* The library's judge beside the model's on random images. A difference is printed and its image kept. */
#include <stdio.h>
#include <stdlib.h>

#include "beleduritz.h"
#include "chance.h"
#include "cover_judge.h"
#include "judge.h"
#include "lent.h"
#include "samples.h"

enum { ENOUGH_TO_MEET_ALL = 1000000 };

static void print_answer(const char *whose, uint64_t word)
{
    static const char *names[FAULT_KINDS] = { "sound", "header", "length", "track", "place", "mark", "twice", "end" };
    uint32_t kind = FAULT_KIND(word);
    printf("  %s: %s at %lu (word %016llx)\n", whose, kind < FAULT_KINDS ? names[kind] : "no kind",
           (unsigned long)FAULT_AT(word), (unsigned long long)word);
}

static void keep(struct image image)
{
    const char *folder = getenv("JUDGING_OUT");
    char path[4096];
    snprintf(path, sizeof path, "%s/difference.image", folder ? folder : ".");
    FILE *file = fopen(path, "wb");
    if (!file || fwrite(lent(image.bytes), 1, image.length, file) != image.length || fclose(file) != 0)
        printf("judge: %s could not be written\n", path);
    else
        printf("  the image: %s\n", path);
}

static void tell(struct image image, unsigned long count, uint64_t of_library, uint64_t of_model)
{
    printf("judge: a difference after %lu images: %lu bytes", count, (unsigned long)image.length);
    if (image.length >= 8)
        printf(", cylinders %u, heads %u, slots %u, N %u, protect %u", image.bytes[3], image.bytes[4], image.bytes[5],
               image.bytes[6], image.bytes[7]);
    printf("\n");
    print_answer("library", of_library);
    print_answer("model", of_model);
    keep(image);
}

int main(int argc, char **argv)
{
    unsigned long wanted = argc > 1 ? strtoul(argv[1], NULL, 0) : ENOUGH_TO_MEET_ALL;
    unsigned long seed = argc > 2 ? strtoul(argv[2], NULL, 0) : 1;
    chance_seed(seed);
    for (unsigned long count = 1; count <= wanted; count++) {
        struct image image = make_sample();
        uint64_t of_library = bel_judge(lent(image.bytes), image.length), of_model = model_judge(image);
        if (of_library != of_model) {
            tell(image, count, of_library, of_model);
            return 1;
        }
        cover_judge(image, of_model);
        free(image.bytes);
    }
    unsigned never = cover_judge_print();
    if (never > 0) {
        printf("judge: %lu images, no difference, rows never met: %u\n", wanted, never);
        return 1;
    }
    printf("judge: %lu images, no difference, every row met\n", wanted);
    return 0;
}

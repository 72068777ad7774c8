/* Which segments of a manifest hold keys from one key on, up to but not including another:
 *   select samples/north.mp ct/12/001 ct/19/
 */
#include "manifest.h"

#include <stdio.h>
#include <string.h>

/* The refusals that selection gives, in words. */
static void print_refusal(struct manifest_answer answer)
{
    switch (answer.number) {
    case 1: printf("refused: the manifest breaks rule L%zu\n", answer.first); break;
    case 2: printf("refused: an argument is over its limit\n"); break;
    case 4: printf("refused: a working table is too short\n"); break;
    case 5: printf("refused: no key is in the range\n"); break;
    case 18: printf("refused: no well-formed MessagePack from byte %zu on\n", answer.first); break;
    case 19: printf("refused: not a manifest: the value at byte %zu is wrong\n", answer.first); break;
    default: printf("refused: %zu at %zu\n", answer.number, answer.first); break;
    }
}

static uint8_t bytes[MANIFEST_ENCODED + 1];
static struct manifest_work work;

int main(int argc, char **argv)
{
    if (argc != 4) {
        fprintf(stderr, "usage: select FILE FROM TO\n");
        return 2;
    }
    FILE *file = fopen(argv[1], "rb");
    if (file == NULL) {
        perror(argv[1]);
        return 2;
    }
    size_t length = fread(bytes, 1, sizeof bytes, file);
    fclose(file);

    /* The keys of both bounds stand in one slice. */
    size_t from = strlen(argv[2]), to = strlen(argv[3]);
    uint8_t args[2 * 64 + 2];
    if (from > 65 || to > 65) {
        fprintf(stderr, "select: a key has at most 64 bytes\n");
        return 2;
    }
    memcpy(args, argv[2], from);
    memcpy(args + from, argv[3], to);
    struct manifest_range range = {
        .start = {MANIFEST_INCLUDED, 0, from},
        .end = {MANIFEST_EXCLUDED, from, to},
    };

    struct manifest_answer answer =
        manifest_select(bytes, length, args, from + to, &range, MANIFEST_WORK(&work));
    if (answer.number != 0)
        print_refusal(answer);
    else if (answer.first == 0)
        printf("unsegmented\n");
    else
        printf("window %zu %zu\n", answer.second, answer.third);
    return 0;
}

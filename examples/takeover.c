/* takeover: what one unit of a pair would announce, told from an image of the lock manager's tables.
 *
 * usage: takeover UNIT IMAGE ADDRESS...
 *
 * UNIT is this unit's client number, IMAGE a file with an image (examples/image.c writes two), and each ADDRESS the name of a lock. For
 * each address one line says who holds it exclusively and what this unit would do. Nothing is changed: to take an address over, the unit
 * still has to request it.
 *
 * Exit: 0 if every question was answered, 1 if one was refused, 2 for wrong usage, 3 if the file can't be read.
 */
#include <errno.h>
#include <stdio.h>
#include <stdlib.h>
#include <string.h>

#include "zamgyorud.h"

enum { EXIT_REFUSED = 1, EXIT_USAGE = 2, EXIT_FILE = 3 };

/* The largest image there is. A byte more is room to see that a file is longer. */
#define MOST_IMAGE ZAMGYORUD_IMAGE_LEN(ZAMGYORUD_MOST_RESOURCES, ZAMGYORUD_MOST_LOCKS)

static uint8_t image[MOST_IMAGE + 1];

static int usage(void) {
    fputs("usage: takeover UNIT IMAGE ADDRESS...\n"
          "  UNIT     this unit's client number, 1 to 255\n"
          "  IMAGE    a file with an image of the lock manager's tables\n"
          "  ADDRESS  a name to ask for; there may be several\n",
          stderr);
    return EXIT_USAGE;
}

/* The client number in a word, or 0 if it isn't one. */
static uint32_t client_number(const char *word) {
    char *end;
    unsigned long number;

    if (*word < '0' || *word > '9') {
        return 0;
    }
    number = strtoul(word, &end, 10);
    return *end == '\0' && number <= ZAMGYORUD_MOST_CLIENT ? (uint32_t)number : 0;
}

/* Reads a whole file, or as much of it as an image can have and one byte more. 1 if it worked. */
static int read_image(const char *path, size_t *length) {
    FILE *file = fopen(path, "rb");
    int failed;

    if (file == NULL) {
        fprintf(stderr, "takeover: %s: %s\n", path, strerror(errno));
        return 0;
    }
    errno = 0;
    *length = fread(image, 1, sizeof image, file);
    failed = ferror(file);
    if (failed) {
        fprintf(stderr, "takeover: %s: %s\n", path, errno != 0 ? strerror(errno) : "it can't be read");
    }
    fclose(file);
    return !failed;
}

/* A refusal of holder in words. */
static const char *in_words(uint32_t refusal) {
    switch (refusal) {
    case ZAMGYORUD_REFUSAL_UNSOUND:
        return "the file is no image of sound tables";
    case ZAMGYORUD_REFUSAL_NAME:
        return "an address has 1 to 64 bytes";
    default:
        return "a refusal that this program doesn't know";
    }
}

/* Tells what this unit would do about an address. 1 if the question was answered. */
static int tell(uint32_t unit, size_t length, const char *address) {
    const struct zamgyorud_held held = zamgyorud_holder(image, length, (const uint8_t *)address, strlen(address));
    const uint32_t holder = zamgyorud_holder_client(held);

    if (zamgyorud_holder_refusal(held) != 0) {
        printf("%s: refused, %s\n", address, in_words(zamgyorud_holder_refusal(held)));
        return 0;
    }
    if (holder == 0) {
        printf("%s: nobody holds it; unit %lu would take it over and announce it\n", address, (unsigned long)unit);
    } else if (holder == unit) {
        printf("%s: unit %lu holds it itself and goes on announcing it\n", address, (unsigned long)unit);
    } else {
        printf("%s: client %lu holds it; unit %lu would not announce it\n", address, (unsigned long)holder, (unsigned long)unit);
    }
    return 1;
}

int main(int argc, char **argv) {
    uint32_t unit;
    size_t length;
    int refused = 0;
    int at;

    if (argc < 4) {
        return usage();
    }
    unit = client_number(argv[1]);
    if (unit == 0) {
        return usage();
    }
    if (!read_image(argv[2], &length)) {
        return EXIT_FILE;
    }
    for (at = 3; at < argc; at++) {
        if (!tell(unit, length, argv[at])) {
            refused = 1;
        }
    }
    if (fflush(stdout) != 0) {
        perror("takeover");
        return EXIT_FILE;
    }
    return refused ? EXIT_REFUSED : EXIT_SUCCESS;
}

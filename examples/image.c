/* image: the two images of a failover, as files for the program takeover.
 *
 * usage: image BEFORE AFTER
 *
 * Unit 1 holds vip-7 exclusively, and unit 2 waits for it: BEFORE is the file for the image of these tables. Then unit 1 is lost and its locks
 * are purged: AFTER is the file for the image that this leaves.
 *
 * Exit: 0 if both files are written, 1 if a call was refused, 2 for wrong usage, 3 if a file can't be written.
 */
#include <stdio.h>
#include <stdlib.h>

#include "zamgyorud.h"

enum { EXIT_REFUSED = 1, EXIT_USAGE = 2, EXIT_FILE = 3 };

/* Room for 4 names and 8 locks. */
#define RESOURCES 4
#define LOCKS 8

static uint32_t memory[ZAMGYORUD_MEMORY_LEN(RESOURCES, LOCKS)];
static uint8_t image[ZAMGYORUD_IMAGE_LEN(RESOURCES, LOCKS)];

/* Ends the program if a call was refused. */
static void accepted(struct zamgyorud_answer answer) {
    if (zamgyorud_refusal(answer) != 0) {
        fprintf(stderr, "image: refused with %lu\n", (unsigned long)zamgyorud_refusal(answer));
        exit(EXIT_REFUSED);
    }
}

/* Writes the image of the tables to a file. */
static void write_image(const struct zamgyorud_tables *tables, const char *path) {
    FILE *file;
    size_t written;

    accepted(zamgyorud_tables_image(tables, image, sizeof image));
    file = fopen(path, "wb");
    if (file == NULL) {
        perror(path);
        exit(EXIT_FILE);
    }
    written = fwrite(image, 1, sizeof image, file);
    if (fclose(file) != 0 || written != sizeof image) {
        perror(path);
        exit(EXIT_FILE);
    }
}

int main(int argc, char **argv) {
    const uint8_t name[] = {'v', 'i', 'p', '-', '7'};
    const struct zamgyorud_tables tables = zamgyorud_tables_in(memory, sizeof memory / sizeof *memory, RESOURCES, LOCKS);

    if (argc != 3) {
        fputs("usage: image BEFORE AFTER\n", stderr);
        return EXIT_USAGE;
    }
    accepted(zamgyorud_tables_start(&tables, RESOURCES, LOCKS));
    accepted(zamgyorud_tables_request(&tables, 1, ZAMGYORUD_MODE_EX, 0, name, sizeof name));
    accepted(zamgyorud_tables_request(&tables, 2, ZAMGYORUD_MODE_EX, 0, name, sizeof name));
    write_image(&tables, argv[1]);
    accepted(zamgyorud_tables_purge(&tables, 1));
    write_image(&tables, argv[2]);
    return EXIT_SUCCESS;
}

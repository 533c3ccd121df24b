/*
 * Checks a job list and runs it by hand on a library:
 *
 *     example LIST LIBRARY
 *
 * prints the number of jobs, the hand run's answer 0, and each entry after the run on a line. A refusal is said in words
 * on standard error, and the exit status is then 1.
 */
#include <inttypes.h>
#include <stdio.h>
#include <stdlib.h>

#include "preview.h"

/* One byte more than the longest list, so that a longer file is refused; likewise for the longest library. */
enum { LIST_ROOM = 4806, LIBRARY_ROOM = 257 };

/* Today's weights: a start, an end, then the instructions of codes 0 to 12; two bytes for each, least first. */
static const uint8_t table[30] = {5, 0, 2, 0, 1, 0, 1, 0, 1, 0, 1, 0, 3, 0, 4, 0, 1, 0, 8, 0, 1, 0, 8, 0, 4, 0, 1, 0, 1, 0};

/* Refusals are 128 plus document 01's or 02's number. */
static const char *refusal(uint32_t answer)
{
    switch (answer - 128) {
    case 1: return "the list's bytes end within a field";
    case 2: return "the list has a wrong mark";
    case 3: return "a number of the list's head is out of range";
    case 4: return "a footprint's count or line is bad";
    case 5: return "a sheet's count or instruction is bad";
    case 6: return "bytes are left over behind the list";
    case 7: return "the list could make more than 128 jobs";
    case 8: return "the library does not have four bytes for each entry of the list";
    case 17: return "the place for the result is too short";
    case 21: return "the table does not have two bytes for each of 15 numbers";
    case 22: return "a number of the table is not in 1 to 1000";
    default: return "no known answer";
    }
}

/* Up to `room` bytes of a file. */
static size_t bytes_of(const char *path, uint8_t *bytes, size_t room)
{
    FILE *file = fopen(path, "rb");
    if (file == NULL) {
        perror(path);
        exit(2);
    }
    size_t length = fread(bytes, 1, room, file);
    if (ferror(file)) {
        perror(path);
        exit(2);
    }
    fclose(file);
    return length;
}

int main(int argc, char **argv)
{
    static uint8_t list[LIST_ROOM];
    static uint8_t library[LIBRARY_ROOM];
    static uint8_t result[LIBRARY_ROOM];

    if (argc != 3) {
        fprintf(stderr, "usage: %s LIST LIBRARY\n", argv[0]);
        return 2;
    }
    size_t list_length = bytes_of(argv[1], list, sizeof list);
    size_t library_length = bytes_of(argv[2], library, sizeof library);

    uint32_t jobs = preview_check(list, list_length);
    if (jobs > 128) {
        fprintf(stderr, "refused: %s\n", refusal(jobs));
        return 1;
    }
    printf("%" PRIu32 "\n", jobs);

    uint32_t answer = preview_hand_run(list, list_length, library, library_length, table, sizeof table, result, sizeof result);
    if (answer != 0) {
        fprintf(stderr, "refused: %s\n", refusal(answer));
        return 1;
    }
    printf("%" PRIu32 "\n", answer);
    for (size_t at = 0; at < library_length; at += 4) {
        uint32_t entry = (uint32_t)result[at] | (uint32_t)result[at + 1] << 8 |
                         (uint32_t)result[at + 2] << 16 | (uint32_t)result[at + 3] << 24;
        printf("%" PRIu32 "\n", entry);
    }
    return 0;
}

/* The screen on the office wall: what a board file says of the week, hour by hour.
 *
 *   office_screen FILE [FIRST_HOUR [HOURS]]
 *
 * It prints a bar of the units that are free throughout each hour, or says in words why the file is refused.
 */
#include <stdio.h>
#include <stdlib.h>

#include "office.h"

enum { MOST_BYTES = 24 + 24 * 256, WIDEST = 64, MINUTES = 60 };

static const char *reason(uint32_t number) {
    switch (number) {
    case 14: return "it is too short to be a board file";
    case 15: return "its header has a value that is not allowed";
    case 16: return "its length does not match the number of its bookings";
    case 17: return "it has more bookings than a board has room for";
    case 18: return "one of its bookings breaks a rule";
    case 19: return "two of its bookings claim the same unit at the same time";
    default: return "of something that this program does not know";
    }
}

/* The bytes of the file, one more than a board file may have at most, so that a longer one is seen to be too long. */
static size_t read_file(const char *name, uint8_t *bytes, size_t room) {
    FILE *file = fopen(name, "rb");
    if (file == NULL) {
        perror(name);
        exit(2);
    }
    size_t len = fread(bytes, 1, room, file);
    if (ferror(file)) {
        perror(name);
        exit(2);
    }
    fclose(file);
    return len;
}

/* The fewest units that are free at any minute of the hour; no answer past the horizon. */
static uint32_t free_in_hour(const uint8_t *bytes, size_t len, uint32_t hour) {
    uint32_t fewest = BOARD_FILE_NO_ANSWER;
    for (uint32_t minute = hour * MINUTES; minute < (hour + 1) * MINUTES; minute++) {
        uint32_t units = board_file_free(bytes, len, minute);
        if (units < fewest) {
            fewest = units;
        }
    }
    return fewest;
}

static void print_hour(uint32_t hour, uint32_t units) {
    printf("day %u %02u:00 %4u ", hour / 24 + 1, hour % 24, units);
    for (uint32_t i = 0; i < units && i < WIDEST; i++) {
        putchar('#');
    }
    puts(units > WIDEST ? ">" : "");
}

int main(int count, char **words) {
    if (count < 2 || count > 4) {
        fprintf(stderr, "usage: %s FILE [FIRST_HOUR [HOURS]]\n", words[0]);
        return 2;
    }
    uint8_t bytes[MOST_BYTES + 1];
    size_t len = read_file(words[1], bytes, sizeof bytes);
    uint32_t refusal = board_file_check(bytes, len);
    if (refusal != 0) {
        printf("%s is refused (%u): %s\n", words[1], refusal, reason(refusal));
        return 1;
    }
    uint32_t first = count > 2 ? (uint32_t)strtoul(words[2], NULL, 10) % 17477 : 0;
    uint32_t hours = count > 3 ? (uint32_t)strtoul(words[3], NULL, 10) % 17477 : 24;
    for (uint32_t hour = first; hour < first + hours; hour++) {
        uint32_t units = free_in_hour(bytes, len, hour);
        if (units == BOARD_FILE_NO_ANSWER) {
            puts("the board ends here");
            break;
        }
        print_hour(hour, units);
    }
    return 0;
}

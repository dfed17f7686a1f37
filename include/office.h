/* What another program may ask of a board file.
 *
 * `bytes` points at the file's bytes and `len` says how many there are; where `len` is 0, `bytes` may be NULL.
 * Neither function writes, allocates or keeps anything.
 */
#ifndef OFFICE_H
#define OFFICE_H

#include <stddef.h>
#include <stdint.h>

#ifdef __cplusplus
extern "C" {
#endif

/* What board_file_free answers where there is no answer. */
#define BOARD_FILE_NO_ANSWER 4294967295u

/* 0 where a board of the file's own kind, with 256 rows, would load the file. Else why it would not:
 *   14  fewer bytes than a header has
 *   15  a field of the header other than the count has a value that is not allowed
 *   16  more or fewer bytes than the count of rows asks for
 *   17  more rows than 256
 *   18  a row breaks a rule for rows
 *   19  a row's claim clashes with the rows above it
 */
uint32_t board_file_check(const uint8_t *bytes, size_t len);

/* The units that are free at that minute, or BOARD_FILE_NO_ANSWER where the file is refused or the minute
 * is not before the file's horizon. */
uint32_t board_file_free(const uint8_t *bytes, size_t len, uint32_t minute);

#ifdef __cplusplus
}
#endif

#endif

/* Dzaghvori: whether one written session may replace another, or is compatible with it, as a printed line.
 *
 * The functions are proved: for every two texts and any areas they give the reply that document 01 asks for, and ask nothing. What a proof
 * cannot see C itself must keep, for every function here:
 *
 * - Each pointer is valid for as many elements as the length behind it says: the texts to read, the areas to read and write. Where a length is
 *   0 its pointer may be any that is not null and is aligned, and is not looked at.
 * - `path` and `scratch` are aligned for uint16_t, and `area` for size_t.
 * - The areas and `*area` lie apart from each other and from the texts. The texts may be the same or overlap.
 * - Nobody else reads or writes the areas, or writes the texts, while a call goes on. A call keeps nothing behind it: several may go on at once
 *   in areas of their own.
 * - There is stack enough: at most 78,072 bytes were seen, and 135,368 for dzaghvori_verdict_own and 192,712 for dzaghvori_compatible_own, which
 *   have areas of their own there (.ci/outside measures it).
 *
 * What a function returns is the length of the line and no verdict: that is the line's first word, `yes`, `no` or `refused`, and nothing else.
 *
 * A text is at most 4,096 bytes long; a longer one is refused in the line, as every fault of a text is. It needs no byte 0 behind it.
 */
#ifndef DZAGHVORI_H
#define DZAGHVORI_H

#include <stddef.h>
#include <stdint.h>

#ifdef __cplusplus
extern "C" {
#endif

/* How long the areas are to be for tables of n and m nodes, in elements. A text has at most 64 nodes; where compatible is asked, m counts the
 * nodes of the dual, which are at most twice those of the second text. A refused text has 0 nodes. */
#define DZAGHVORI_MARKS(n, m) (2 * (size_t)(n) * (size_t)(m))
#define DZAGHVORI_PATH(n, m) (2 * (size_t)(n) * (size_t)(m))
#define DZAGHVORI_SCRATCH(n, m) (4 * (size_t)(n) * (size_t)(m))
#define DZAGHVORI_LINE(n, m) (6 * (size_t)(n) * (size_t)(m) + 18)

/* The most bytes of a text that is not refused for its length, and the most nodes of its table and of that table's dual. */
#define DZAGHVORI_TEXT_BYTES 4096
#define DZAGHVORI_TEXT_NODES 64
#define DZAGHVORI_DUAL_NODES 128

/* Whether the new text may replace the old one. Writes the printed line to the front of `line`, its line feed included and no byte 0 behind it, and
 * returns how many bytes it has; `*area` is 0. What is beyond the line stays. `marks`, `path` and `scratch` are left as document 01 has a verdict
 * leave them; where a text is refused they stay as they were.
 *
 * Where an area is too short for the two texts' tables, the function returns 0, `*area` is the position of the least such area (1 marks, 2
 * path, 3 scratch, as in document 01's refusal 11, and 4 line), and nothing else is written. */
size_t dzaghvori_verdict(const uint8_t *new_text, size_t new_length, const uint8_t *old_text, size_t old_length, uint8_t *marks,
                         size_t marks_length, uint16_t *path, size_t path_length, uint16_t *scratch, size_t scratch_length, uint8_t *line,
                         size_t line_length, size_t *area);

/* Whether the new text is compatible with the other one: whether it may replace the dual of the other. Otherwise the same; nodes, marks and steps
 * are those of the new table and the dual. */
size_t dzaghvori_compatible(const uint8_t *new_text, size_t new_length, const uint8_t *other_text, size_t other_length, uint8_t *marks,
                            size_t marks_length, uint16_t *path, size_t path_length, uint16_t *scratch, size_t scratch_length,
                            uint8_t *line, size_t line_length, size_t *area);

/* The same as dzaghvori_verdict, with marks, path and scratch of its own, which are enough for every two texts. The line alone can be too short:
 * then 0 is returned, `*area` is 4, and nothing else is written. */
size_t dzaghvori_verdict_own(const uint8_t *new_text, size_t new_length, const uint8_t *old_text, size_t old_length, uint8_t *line,
                             size_t line_length, size_t *area);

/* The same as dzaghvori_compatible, with marks, path and scratch of its own. The line alone can be too short: then 0 is returned, `*area` is 4, and
 * nothing else is written. */
size_t dzaghvori_compatible_own(const uint8_t *new_text, size_t new_length, const uint8_t *other_text, size_t other_length, uint8_t *line,
                                size_t line_length, size_t *area);

#ifdef __cplusplus
}
#endif

#endif

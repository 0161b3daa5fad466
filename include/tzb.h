/* The reader of time-zone index files (.tzb), for C and for whatever can call C: link libtzb_c.a.
 *
 * Memory is lent for a call as a pointer and a length. A length counts what is pointed to: bytes for uint8_t, numbers
 * for int32_t, uint32_t and uint64_t, of which sizeof is a multiple. A pointer is never null, not even where the length
 * is 0. What is lent for writing does not overlap what else is lent to the same call.
 *
 * Every function is total: any bytes and any numbers get an answer, or a refusal, whose number n is that of
 * document 01, or for 48 to 50 of document 02. A refusal is told as -1000 - n, and leaves lent memory as it was. No function
 * keeps anything between calls, and each may be called from any thread.
 *
 * A refusal by 38 to 43 is about a number in a chunk's bytes, and has a place: that of the number's first byte in the
 * file, for 43 of the first byte that is left over. A function that can be refused so has a second beside it, whose name
 * ends in _place and which has the same arguments. It asks the same again, writes nothing, and answers with the place,
 * or with -1 where there is none. (tzb_journal_ask has none: such a refusal is its entry's reason, by the number alone.)
 *
 * Open once, ask often:
 *
 *     uint8_t record[TZB_RECORD];
 *     int32_t opened = tzb_open(file, file_length, record, sizeof record);
 *     if (opened < 0) -> refused by -1000 - opened
 *     int64_t zone = tzb_ask(record, sizeof record, file, file_length, lng, lat);
 *     uint64_t ends[2];
 *     if (zone >= 0 && tzb_name(record, sizeof record, file, file_length, (uint32_t) zone, ends, 2) == 0)
 *         -> its name is the bytes of the file from ends[0] up to ends[1]
 *
 * A record is numbers only, little-endian: it holds no pointer, and may be kept or copied. It is not trusted: one
 * that was made by hand, or from another file, is answered by what it says, or refused.
 *
 * Stack: a call wants so much of it, in KB of 1,024 bytes, from the caller's stack pointer on. Measured, bounded by the
 * machine code, and rounded up; no theorem speaks of it (docs/PROMISES.md). Signal handlers on the same stack come on top.
 *
 *     96 KB  tzb_open tzb_lookup tzb_lookup_place tzb_full_check tzb_full_check_rule tzb_map tzb_map_length
 *     24 KB  tzb_crc32
 *     8 KB  tzb_contains tzb_contains_place tzb_decode tzb_decode_place tzb_ask tzb_ask_place
 *     8 KB  tzb_ask_all tzb_ask_all_place tzb_journal_ask
 *     8 KB  tzb_stripes_need tzb_stripes tzb_contains_striped tzb_contains_striped_place
 *     8 KB  tzb_ask_striped tzb_ask_striped_place tzb_ask_all_striped tzb_ask_all_striped_place
 *     4 KB  tzb_zone_count tzb_name_start tzb_name_end tzb_name tzb_choice tzb_listed tzb_candidate
 *     4 KB  tzb_journal_write tzb_journal_read
 *     4 KB  tzb_number tzb_number_length tzb_box_contains tzb_box_relevant tzb_utf8 tzb_ray tzb_parity tzb_next_up
 */
#ifndef TZB_H
#define TZB_H

#include <stddef.h>
#include <stdint.h>

#ifdef __cplusplus
extern "C" {
#endif

/* The size of an opened record, in bytes. A record of another length is refused by 44. */
#define TZB_RECORD 84

/* ---- opening, and questions over the opened record */

/* Opens the file and writes its record into the first TZB_RECORD bytes of lent memory; what lies behind stays.
 * 0, or -1000 - n for refusal n: opening's own, then 46 where there is no room. */
int32_t tzb_open(const uint8_t *file, size_t file_length, uint8_t *record, size_t record_length);

/* How many zones there are: zone numbers are those below it. Or -1000 - n. */
int64_t tzb_zone_count(const uint8_t *record, size_t record_length);

/* Where a zone's name starts in the file, or -1000 - n: 45 for a zone number too large. */
int64_t tzb_name_start(const uint8_t *record, size_t record_length, const uint8_t *file, size_t file_length, uint32_t zone);

/* Where it ends: the place after its last byte. Or -1000 - n, by the same refusal. The name is UTF-8 in a file that was opened. */
int64_t tzb_name_end(const uint8_t *record, size_t record_length, const uint8_t *file, size_t file_length, uint32_t zone);

/* Both at once: where it starts and where it ends, into the first two of the lent numbers; those behind stay.
 * 0, or -1000 - n for refusal n: the name's own, then 46 where fewer than two numbers are lent. */
int32_t tzb_name(const uint8_t *record, size_t record_length, const uint8_t *file, size_t file_length, uint32_t zone, uint64_t *ends, size_t ends_length);

/* What the candidates of a position are: 0 none, 1 all zones in order, 2 those listed for a cell. Or -1000 - n.
 * Longitude and latitude in degrees; any float may be asked. */
int32_t tzb_choice(const uint8_t *record, size_t record_length, const uint8_t *file, size_t file_length, double lng, double lat);

/* For 2 of tzb_choice: how many are listed, times 2^32, plus the place of the first in the candidate list.
 * For 1: the number of zones. Else 0. */
uint64_t tzb_listed(const uint8_t *record, size_t record_length, const uint8_t *file, size_t file_length, double lng, double lat);

/* The zone at a place of the candidate list. Or -1000 - n: 30 for a place at or past the end of the list. */
int64_t tzb_candidate(const uint8_t *record, size_t record_length, const uint8_t *file, size_t file_length, uint32_t place);

/* Whether the zone contains a point of whole numbers, in hundred-thousandths of a degree: 1 yes, 0 no. Or -1000 - n:
 * 45 for a zone number too large. A point beyond +-18,000,000 or +-9,000,000 is in no zone. */
int32_t tzb_contains(const uint8_t *record, size_t record_length, const uint8_t *file, size_t file_length, uint32_t zone, int32_t x, int32_t y);

/* The place in the file, counted from its first byte, of the number that tzb_contains's refusal 38 to 43 is about, or
 * -1 where it is no such refusal. */
int64_t tzb_contains_place(const uint8_t *record, size_t record_length, const uint8_t *file, size_t file_length, uint32_t zone, int32_t x, int32_t y);

/* Writes the points of a chunk into lent numbers, two a point: x, y, x, y. What lies behind stays.
 * How many points, or -1000 - n: 34 for a chunk number too large, 46 where there is no room. */
int64_t tzb_decode(const uint8_t *record, size_t record_length, const uint8_t *file, size_t file_length, uint32_t chunk, int32_t *out, size_t out_length);

/* The place in the file, counted from its first byte, of the number that tzb_decode's refusal 38 to 43 is about, or
 * -1 where it is no such refusal. Of what is lent for the points the length alone counts: 46 has no place. */
int64_t tzb_decode_place(const uint8_t *record, size_t record_length, const uint8_t *file, size_t file_length, uint32_t chunk, const int32_t *out, size_t out_length);

/* ---- which zone */

/* Opens the file and asks for the zone that a position lies in, in degrees. The zone's number, -1 for none, or
 * -1000 - n for refusal n, opening's first. Opening reads the whole file: to ask often, open once and use tzb_ask. */
int32_t tzb_lookup(const uint8_t *file, size_t file_length, double lng, double lat);

/* The place in the file, counted from its first byte, of the number that tzb_lookup's refusal 38 to 43 is about, or
 * -1 where it is no such refusal. */
int64_t tzb_lookup_place(const uint8_t *file, size_t file_length, double lng, double lat);

/* The same as tzb_lookup with the record of a file that was opened. A record that was made by hand may have zone numbers
 * up to 4,294,967,294: so the answer has 64 bits. */
int64_t tzb_ask(const uint8_t *record, size_t record_length, const uint8_t *file, size_t file_length, double lng, double lat);

/* The place in the file, counted from its first byte, of the number that tzb_ask's refusal 38 to 43 is about, or -1
 * where it is no such refusal. */
int64_t tzb_ask_place(const uint8_t *record, size_t record_length, const uint8_t *file, size_t file_length, double lng, double lat);

/* Writes the numbers of all zones that a position lies in, in the order of their names' bytes, into the first of the lent
 * places; those behind stay. How many zones, or -1000 - n: 46 where there are more zones than places. 15 places are
 * always enough for a file with a GRID, tzb_zone_count() places for one without. */
int64_t tzb_ask_all(const uint8_t *record, size_t record_length, const uint8_t *file, size_t file_length, double lng, double lat, uint32_t *zones, size_t zones_length);

/* The place in the file, counted from its first byte, of the number that tzb_ask_all's refusal 38 to 43 is about, or
 * -1 where it is no such refusal. Nothing is read of what is lent for the zones. */
int64_t tzb_ask_all_place(const uint8_t *record, size_t record_length, const uint8_t *file, size_t file_length, double lng, double lat, const uint32_t *zones, size_t zones_length);

/* ---- the same questions by stripes, for many positions
 *
 * Without stripes a question looks at every chunk of a group that it meets. The stripes of a group say which of its
 * chunks lie at a height, and a question looks at those alone. They are built once, of a record and its file:
 *
 *     int64_t need = tzb_stripes_need(record, sizeof record, file, file_length);
 *     uint32_t *numbers = need > 0 ? malloc(need * sizeof *numbers) : NULL;
 *     if (numbers && tzb_stripes(record, sizeof record, file, file_length, numbers, need) == need)
 *         zone = tzb_ask_striped(record, sizeof record, numbers, need, file, file_length, lng, lat);
 *
 * With the numbers that were built of this record and this file, and with whatever lies behind them, every question is
 * answered and refused as without. The numbers hold no pointer, and may be kept or copied. They are not trusted: others
 * are answered by what they say, or refused by 44 for a place past them, 34 for a chunk outside the group or a height
 * of 0. None at all are 44: they do not stand for the plain question. */

/* How many numbers the stripes take. Or -1000 - n, the first that is met, group by group and in each chunk by chunk: 34
 * or 44 for a record that cannot be read, 49 where, in a group of two chunks or more, a chunk's box reaches above or
 * below the group's. After tzb_open of the same bytes it is 49 or none, and none after tzb_full_check has accepted them.
 * A small file can need more than 2^32 numbers, since groups may share their chunks: look before you make room. */
int64_t tzb_stripes_need(const uint8_t *record, size_t record_length, const uint8_t *file, size_t file_length);

/* Builds the stripes into the first of the lent numbers; those behind stay. How many were written, or -1000 - n: that of
 * tzb_stripes_need, then 46 exactly where fewer numbers are lent than it answers. */
int64_t tzb_stripes(const uint8_t *record, size_t record_length, const uint8_t *file, size_t file_length, uint32_t *numbers, size_t numbers_length);

/* tzb_contains, by stripes. */
int32_t tzb_contains_striped(const uint8_t *record, size_t record_length, const uint32_t *numbers, size_t numbers_length, const uint8_t *file, size_t file_length, uint32_t zone, int32_t x, int32_t y);

/* tzb_contains_place, by stripes. */
int64_t tzb_contains_striped_place(const uint8_t *record, size_t record_length, const uint32_t *numbers, size_t numbers_length, const uint8_t *file, size_t file_length, uint32_t zone, int32_t x, int32_t y);

/* tzb_ask, by stripes. */
int64_t tzb_ask_striped(const uint8_t *record, size_t record_length, const uint32_t *numbers, size_t numbers_length, const uint8_t *file, size_t file_length, double lng, double lat);

/* tzb_ask_place, by stripes. */
int64_t tzb_ask_striped_place(const uint8_t *record, size_t record_length, const uint32_t *numbers, size_t numbers_length, const uint8_t *file, size_t file_length, double lng, double lat);

/* tzb_ask_all, by stripes. */
int64_t tzb_ask_all_striped(const uint8_t *record, size_t record_length, const uint32_t *numbers, size_t numbers_length, const uint8_t *file, size_t file_length, double lng, double lat, uint32_t *zones, size_t zones_length);

/* tzb_ask_all_place, by stripes. */
int64_t tzb_ask_all_striped_place(const uint8_t *record, size_t record_length, const uint32_t *numbers, size_t numbers_length, const uint8_t *file, size_t file_length, double lng, double lat, const uint32_t *zones, size_t zones_length);

/* ---- the full check */

/* Checks F1 to F6 over the whole file. 0: accepted. -1000 - n for opening's refusal n; -1047 where the file opens and
 * breaks another rule. Of an accepted file no question is refused but for a number that is too large, a place of the
 * candidate list that no cell lists, or room that is too short; and every ring has three segments or more whose ends
 * differ, so none is a point or goes to another point and back. Its time grows with the points of all rings, and rings
 * may name the same points again and again. */
int32_t tzb_full_check(const uint8_t *file, size_t file_length);

/* The lowest broken rule, 2 to 6, where tzb_full_check says -1047; else 0. A ring of fewer than three segments is rule 2,
 * where every chunk can be read. */
uint32_t tzb_full_check_rule(const uint8_t *file, size_t file_length);

/* ---- a zone drawn on a map */

/* Writes a zone as GeoJSON (RFC 7946) into the first of the lent bytes; those behind stay. The text is a MultiPolygon
 * without spaces, each coordinate in degrees with five decimals: outer rings counterclockwise, holes clockwise, each
 * from the first point that the file stores, which also closes it. It is ASCII, and ends in no zero byte.
 * How many bytes it has, or -1000 - n for refusal n, the first of these: the full check's (47 with the rule that
 * tzb_full_check_rule tells), 45 for a zone number too large, 48 where a ring of the zone, a hole too, has under four
 * positions (which the full check has refused before), over 10,000, or no area, 46 where there is no room. */
int64_t tzb_map(const uint8_t *file, size_t file_length, uint32_t zone, uint8_t *out, size_t out_length);

/* How many bytes that text has, without writing it. Or -1000 - n, by the same refusals but 46. */
int64_t tzb_map_length(const uint8_t *file, size_t file_length, uint32_t zone);

/* ---- a journal of answers
 *
 * A journal is entries, one behind the other, without a header. An entry has the answer to one question of whole numbers,
 * little-endian: x and y (4 bytes each), the places for zone numbers (2 bytes each, 65535 where unused), how many zones
 * there are and a reason (1 byte each). An entry with `places` places has 10 + 2 * places bytes. Nothing in it tells its
 * size, so every call is told the places: TZB_PLACES, and any other number is refused by 50.
 *
 * It has one of two forms. Either the reason is 0, and up to so many different zones, each below 65535, stand in the first
 * places; one or more only for a position within +-18,000,000 and +-9,000,000. Or there is no zone, and the reason is a
 * refusal's number, 1 to 46. 46 says that there are more zones than places. */

/* How many places an entry has. */
#define TZB_PLACES 3

/* The size of an entry with TZB_PLACES places, in bytes. */
#define TZB_ENTRY 16

/* Asks for all zones that contain a point of whole numbers, as tzb_contains tells it, every zone in turn and without the
 * GRID, and writes the entry into the first of the lent bytes; those behind stay. The zones stand in the order of their
 * names' bytes. A refusal of the question is the entry's reason, and none of the call.
 * 0, or -1000 - n: 44 for a record of another length, then 50 for other places, then 46 where there is no room. */
int32_t tzb_journal_ask(const uint8_t *record, size_t record_length, const uint8_t *file, size_t file_length, uint32_t places, int32_t x, int32_t y, uint8_t *out, size_t out_length);

/* Writes an entry of these zones, in their order, or of this reason, into the first of the lent bytes; those behind stay.
 * With no zones and the refusal of tzb_open as the reason it is the entry of a file that does not open.
 * 0, or -1000 - n: 50 for what has neither form, more zones than places too, then 46 where there is no room. */
int32_t tzb_journal_write(uint32_t places, int32_t x, int32_t y, const uint32_t *zones, size_t zones_length, uint32_t reason, uint8_t *out, size_t out_length);

/* Reads an entry: x and y into the first two of the lent numbers, its zones into the first of the lent places; those
 * behind stay. 256 times how many zones, plus the reason. Or -1000 - n: 50 for bytes of another length or of neither
 * form, then 46 where fewer than two numbers are lent, or fewer places than there are zones. */
int32_t tzb_journal_read(uint32_t places, const uint8_t *bytes, size_t bytes_length, int32_t *position, size_t position_length, uint32_t *zones, size_t zones_length);

/* ---- parts, for comparison runs */

/* The number that starts at a place of a chunk's bytes, or 0 where there is none. */
int32_t tzb_number(const uint8_t *bytes, size_t bytes_length, size_t at);

/* How many bytes that number has, 1 to 5. Or -1000 - n: 38 to 40. */
int32_t tzb_number_length(const uint8_t *bytes, size_t bytes_length, size_t at);

/* 1 where the point lies in the box, 0 where not. */
uint32_t tzb_box_contains(int32_t minx, int32_t miny, int32_t maxx, int32_t maxy, double x, double y);

/* 1 where what lies in the box can matter to the ray from the point, 0 where not. */
uint32_t tzb_box_relevant(int32_t minx, int32_t miny, int32_t maxx, int32_t maxy, double x, double y);

/* The CRC-32 of the bytes, as IEEE 802.3 has it. */
uint32_t tzb_crc32(const uint8_t *bytes, size_t bytes_length);

/* 1 where the bytes are UTF-8, 0 where not. */
uint32_t tzb_utf8(const uint8_t *bytes, size_t bytes_length);

/* What the point sees of the segment from a to b: 2 it is on it, 1 the segment counts, 0 neither. */
int32_t tzb_ray(int32_t ax, int32_t ay, int32_t bx, int32_t by, double x, double y);

/* 1 where one end of the segment alone is above the point, 0 where not. */
uint32_t tzb_parity(int32_t ax, int32_t ay, int32_t bx, int32_t by, double x, double y);

/* The next float upward. */
double tzb_next_up(double x);

#ifdef __cplusplus
}
#endif

#endif

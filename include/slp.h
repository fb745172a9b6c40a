/*
 * Quarter-hour series from VDEW load profiles: the proved library's calls for C and C++.
 * Link target/staticlib/libexports.a, which `tools/build` makes, for x86-64, where size_t has 64 bits:
 * cc -I include main.c target/staticlib/libexports.a
 *
 * Every call takes any bytes, values and numbers, in any amount, ends, and either does its work (number 0) or is refused by the
 * first question of document 01 that is answered "no" (14 to 19 are document 02's): `number` is then that question's number, `place`
 * the place it names (0 where it names none), every other field is 0, and lent memory keeps its content. slp_locate alone gives no
 * number: it answers the part of length 0, and slp_check, which asks the same questions, gives number and place. Of its pointers a
 * call asks what is said below the table; no call can find that out by itself.
 *
 *   number  what is wrong                                                       place
 *        1  the file has fewer than 6 bytes or does not begin with "SLP"        0
 *        2  its version is not 1                                                0
 *        3  its count of profiles is not 1 to 11, or its length does not fit    0
 *        4  a group code is above 10 or not above the one before                byte offset of the first such code
 *        5  a value is above 20,000                                             byte offset of the first such value
 *        6  the wanted group is not in the file                                 0 (slp_compare: 0 `first`, 1 `second`)
 *        7  a date is not real or not from 1996 to 2099                         0 the first date, 1 the last
 *        8  the period ends before it begins or has more than 1,461 days        0
 *        9  a holiday is no such date, not later than the one before,           index of the first such entry
 *           or the 401st of the list
 *       10  the yearly use is above 1,000,000,000 kWh                           0
 *       11  the carry is above 39,999                                           0
 *       12  the output is too short                                             entries needed (slp_write, slp_respond:
 *                                                                               bytes)
 *       13  (in the text of slp_respond alone) the input has more than 65,536   0
 *           bytes, or its head or list is not complete
 *       14  the year is not one from 1996 to 2099                               0
 *       15  the choice of regional days is above 63                             0
 *       16  the list for the holidays is too short                              entries needed
 *       17  the reading periods are not 1 to 48, or the metered values are      0
 *           not as many
 *       18  the first date of a reading period is not real, outside the         index of the first such period
 *           span, not later than the one before or, of the first period, not
 *           the span's own
 *       19  the day page is too short                                           bytes needed
 *
 * All memory is the caller's: it is lent for the length of the call, nothing is allocated, kept or freed. A pointer points
 * at `.._length` entries (entries, not bytes) and is not NULL, also where the length is 0. What a call writes to overlaps
 * nothing else that the call is given. The calls have no state: they may be called from several threads at the same time, as
 * long as no thread writes to what another's call is lent.
 *
 * A group is a code: 0 is H0, 1 to 7 are G0 to G6, 8 to 10 are L0 to L2. A date is a number yyyymmdd. A list of holidays
 * holds strictly rising dates, at most 400.
 */
#ifndef SLP_H
#define SLP_H

#include <stddef.h>
#include <stdint.h>

#ifdef __cplusplus
extern "C" {
#endif

/* The values of one group: three seasons, three day types, 96 quarter hours. */
#define SLP_GROUP_VALUES 864

/* The length in bytes of a profile file with `count` groups. */
#define SLP_FILE_LENGTH(count) (6 + 1729 * (size_t)(count))

/* Enough entries of output for every period: 1,461 days of at most 100 figures. */
#define SLP_LONGEST_SERIES 146100

/* Enough bytes of page for what slp_respond writes for every input. */
#define SLP_PAGE_LENGTH 65536

/* The length in bytes of slp_page's page of `days` days: a line of 38 bytes for each, and the last one. */
#define SLP_DAY_PAGE_LENGTH(days) (38 * ((size_t)(days) + 1))

/* Enough bytes for the day page of every period: 1,461 days. */
#define SLP_LONGEST_DAY_PAGE 55556

/* Enough entries for the holidays of every year. */
#define SLP_MOST_HOLIDAYS 17

/* The most reading periods of slp_deliveries. */
#define SLP_MOST_PERIODS 48

/* The regional holidays, for the choice of slp_holidays: SLP_EPIPHANY | SLP_ALL_SAINTS, say. */
#define SLP_EPIPHANY 1
#define SLP_CORPUS_CHRISTI 2
#define SLP_ASSUMPTION 4
#define SLP_REFORMATION 8
#define SLP_ALL_SAINTS 16
#define SLP_REPENTANCE 32

/* Passed (number 0, place 0) or refused. */
struct slp_check_report {
    uint32_t number;
    size_t place;
};

/* A part of the lent file: `length` bytes from byte `offset` on. */
struct slp_located_part {
    size_t offset;
    size_t length;
};

/* alike is 1 where all 864 values of the two groups agree, else 0. */
struct slp_comparison_report {
    uint32_t number;
    size_t place;
    uint32_t alike;
};

/* What documents 01 and 02 say of a day. */
struct slp_day_report {
    uint32_t number;
    size_t place;
    uint32_t weekday;  /* 1 Monday to 7 Sunday */
    uint32_t t;        /* day of the year, from 1 */
    uint32_t season;   /* 1 winter, 2 summer, 3 transition */
    uint32_t day_type; /* 1 weekday, 2 Saturday, 3 Sunday */
    uint32_t value_count; /* 92, 96 or 100 */
};

/* What a series adds up to. */
struct slp_expansion_report {
    uint32_t number;
    size_t place;
    size_t count;   /* its figures */
    uint64_t total; /* their sum in Wh */
    uint32_t carry; /* left over, in 1/40,000 Wh, at most 39,999: the carry of the next period's call */
};

/* How much text was written. */
struct slp_response_report {
    uint32_t number;
    size_t place;
    size_t length; /* bytes written */
};

/* How many holidays were written. */
struct slp_holidays_report {
    uint32_t number;
    size_t place;
    size_t length; /* dates written, 10 to 17; 0 where refused */
};

/* Whether `file` is a profile file that has `group`. Questions 1 to 6. Writes nothing. */
struct slp_check_report slp_check(const uint8_t *file, size_t file_length, uint8_t group);

/*
 * Where the 1,728 value bytes of `group` stand in `file`. Questions 1 to 6; where one is answered "no", offset and length
 * are 0 (slp_check tells which). Writes nothing.
 */
struct slp_located_part slp_locate(const uint8_t *file, size_t file_length, uint8_t group);

/*
 * Reads the 864 values of `group` into the first entries of `table` and keeps those beyond. Questions 1 to 6 and 12 (place:
 * the entries needed).
 */
struct slp_check_report slp_read(const uint8_t *file, size_t file_length, uint8_t group, uint16_t *table,
                                 size_t table_length);

/*
 * Writes the profile file of the groups `codes`, with 864 entries of `values` for each in that order, into the first bytes
 * of `buffer` and keeps those beyond. Questions 3 (1 to 11 codes, 864 values for each), 4, 5 (places as in the file to be
 * written) and 12 (place: the bytes needed, SLP_FILE_LENGTH(codes_length)).
 */
struct slp_check_report slp_write(const uint8_t *codes, size_t codes_length, const uint16_t *values, size_t values_length,
                                  uint8_t *buffer, size_t buffer_length);

/* Compares two groups of `file`. Questions 1 to 6 (place in 6: 0 where `first` is missing, else 1). Writes nothing. */
struct slp_comparison_report slp_compare(const uint8_t *file, size_t file_length, uint8_t first, uint8_t second);

/*
 * Weekday, day of the year, season, day type and value count of `date`. The day type is settled in this order: a Sunday is a
 * Sunday; a date that is listed in `holidays` counts as Sunday, also 24 and 31 December; unlisted, those two count as Saturday; then
 * Saturdays and weekdays. Questions 7 (place 0) and 9. Writes nothing. `holidays` is not NULL, also where the list is empty.
 */
struct slp_day_report slp_day(uint32_t date, const uint32_t *holidays, size_t holidays_length);

/*
 * Makes the series of `group` from `first` to `last`, both included, at most 1,461 days, for a yearly use of `yearly` kWh
 * (at most 1,000,000,000), and writes its figures, the Wh of one quarter hour each, into the first entries of `out`, keeping
 * those beyond. `carry`, at most 39,999, is 0 to begin with, then what the call for the days before returned. `holidays` is not
 * NULL, also where the list is empty. Questions 1 to 12 (place in 12: the entries needed; SLP_LONGEST_SERIES is always enough).
 */
struct slp_expansion_report slp_expand(const uint8_t *file, size_t file_length, uint8_t group, uint32_t first, uint32_t last,
                                       const uint32_t *holidays, size_t holidays_length, uint32_t yearly, uint32_t carry,
                                       uint32_t *out, size_t out_length);

/*
 * Writes what the program slp prints for `input` into the first bytes of `page` and keeps those beyond. An input is group (1 byte),
 * first and last date, yearly use (4 bytes each), list length (2 bytes), the list's dates (4 bytes each), then the profile file,
 * all big-endian. What the questions 1 to 11 and 13 refuse is a line of that text ("refused", number, place), so the call itself is
 * refused by question 12 alone (place: the bytes needed; SLP_PAGE_LENGTH is always enough).
 */
struct slp_response_report slp_respond(const uint8_t *input, size_t input_length, uint8_t *page, size_t page_length);

/*
 * Writes the German holidays of `year` into the first entries of `list` and keeps those beyond: the eleven days that all of
 * Germany keeps (New Year, Good Friday, Easter Sunday and Monday, 1 May, Ascension Day, Whit Sunday and Monday, 3 October, 25
 * and 26 December), and the regional days whose bits are set in `choice`: SLP_EPIPHANY (bit 0), SLP_CORPUS_CHRISTI (1),
 * SLP_ASSUMPTION (2), SLP_REFORMATION (3), SLP_ALL_SAINTS (4), SLP_REPENTANCE (5), joined by |; 0 for none. The dates rise, and
 * one that is met twice (1 May 2008, Ascension Day too) is listed once, so every call that is lent holidays takes the list. 24
 * and 31 December are no public holidays and not in it, so that they count as Saturday where they are no Sundays;
 * where an agreement makes one of them a full holiday, insert it where the dates still rise (lend an entry more for it).
 * Questions 14, 15 and 16 (place: the entries needed; SLP_MOST_HOLIDAYS is always enough).
 */
struct slp_holidays_report slp_holidays(uint32_t year, uint8_t choice, uint32_t *list, size_t list_length);

/*
 * Writes the over and under deliveries of a customer into the first entries of `out`, one for each reading period, and keeps
 * those beyond: its metered energy minus its balanced energy in Wh, positive where the customer drew more. The span goes from
 * `first` to `last`, both included, at most 1,461 days. `starts` has the first date of each period, 1 to SLP_MOST_PERIODS of
 * them: the first is `first`, each is later than the one before. A period ends the day before the next one begins, the last
 * with `last`. `metered` has the kWh of each period, as many entries as `starts`. The customer is balanced by the profile of
 * `group` in `file`, with `holidays` and a yearly use of `yearly` kWh, at most 1,000,000,000. A period's balanced energy is the
 * sum of its figures in the series that slp_expand makes for the whole span, begun with carry 0, so that the differences add up
 * to 1,000 times all metered kWh less that series' total. Questions 1 to 8, 17, 18, 9, 10 and 12 (place: the entries needed,
 * one for each period; SLP_MOST_PERIODS is always enough), in this order.
 */
struct slp_check_report slp_deliveries(const uint8_t *file, size_t file_length, uint8_t group, uint32_t first, uint32_t last,
                                       const uint32_t *starts, size_t starts_length, const uint32_t *metered,
                                       size_t metered_length, const uint32_t *holidays, size_t holidays_length,
                                       uint32_t yearly, int64_t *out, size_t out_length);

/*
 * Fills `page` from its start with a line for each day from `first` to `last` and a last line with their sums, and keeps the bytes
 * beyond. A line has 38 bytes: the date as yyyy-mm-dd (10), season letter (W winter, S summer, T transition) with day digit (1
 * weekday, 2 Saturday, 3 Sunday) (2), how many quarter hours the day has (6) and their energy in Wh (16), both right-aligned with
 * spaces before them, one space between two fields, and LF. The last line has "total" and two hyphens in place of date and day
 * type. There is no NUL behind it. What is given and answered is as in slp_expand; no figure is written, and the carry is handed on
 * in the answer alone. Questions 1 to 11 and 19 (place: the bytes needed, SLP_DAY_PAGE_LENGTH of the period's days, so that a call
 * with a length of 0 says how many bytes an accepted one fills; SLP_LONGEST_DAY_PAGE is always enough).
 */
struct slp_expansion_report slp_page(const uint8_t *file, size_t file_length, uint8_t group, uint32_t first, uint32_t last,
                                     const uint32_t *holidays, size_t holidays_length, uint32_t yearly, uint32_t carry,
                                     uint8_t *page, size_t page_length);

#ifdef __cplusplus
}
#endif

#endif

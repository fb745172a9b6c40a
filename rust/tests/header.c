/* Calls every function of slp.h; document 01's listing is the example. Exits with 1 and a line for each figure that differs. */
#include "slp.h"

#include <inttypes.h>
#include <stdio.h>
#include <string.h>

static int faults = 0;

static void expect(const char *what, uint64_t found, uint64_t wanted)
{
    if (found == wanted)
        return;
    printf("%s: %" PRIu64 ", not %" PRIu64 "\n", what, found, wanted);
    faults++;
}

static const uint8_t codes[1] = {1};
static const uint32_t no_holidays[1] = {0};
static uint16_t values[SLP_GROUP_VALUES];
static uint16_t table[SLP_GROUP_VALUES + 1];
static uint8_t file[SLP_FILE_LENGTH(1)];
static uint32_t out[189];

static uint64_t sum(size_t from, size_t to)
{
    uint64_t s = 0;
    for (size_t i = from; i < to; i++)
        s += out[i];
    return s;
}

static void file_calls(void)
{
    for (size_t i = 0; i < SLP_GROUP_VALUES; i++)
        values[i] = 1001;
    table[SLP_GROUP_VALUES] = 7;
    expect("write", slp_write(codes, 1, values, SLP_GROUP_VALUES, file, sizeof file).number, 0);
    expect("check", slp_check(file, sizeof file, 1).number, 0);
    expect("check of another group", slp_check(file, sizeof file, 2).number, 6);
    expect("read", slp_read(file, sizeof file, 1, table, SLP_GROUP_VALUES + 1).number, 0);
    expect("first value", table[0], 1001);
    expect("last value", table[SLP_GROUP_VALUES - 1], 1001);
    expect("entry beyond the table", table[SLP_GROUP_VALUES], 7);
    struct slp_located_part part = slp_locate(file, sizeof file, 1);
    expect("offset", part.offset, 7);
    expect("length", part.length, 1728);
    struct slp_comparison_report same = slp_compare(file, sizeof file, 1, 1);
    expect("compare", same.number, 0);
    expect("alike", same.alike, 1);
    struct slp_comparison_report missing = slp_compare(file, sizeof file, 1, 10);
    expect("compare with a missing group", missing.number, 6);
    expect("its place", missing.place, 1);
}

static void day_call(void)
{
    struct slp_day_report day = slp_day(20000326, no_holidays, 0);
    expect("day", day.number, 0);
    expect("weekday", day.weekday, 7);
    expect("t", day.t, 86);
    expect("season", day.season, 3);
    expect("day type", day.day_type, 3);
    expect("value count", day.value_count, 92);
    static const uint32_t holidays[] = {19991224, 19991225, 19991226};
    expect("Christmas Eve, not listed", slp_day(19991224, holidays + 1, 2).day_type, 2);
    expect("Christmas Eve, listed", slp_day(19991224, holidays, 3).day_type, 3);
}

static void listing(void)
{
    out[188] = 7;
    struct slp_expansion_report made = slp_expand(file, sizeof file, 1, 20000325, 20000326, no_holidays, 0, 1000, 0, out, 189);
    expect("expand", made.number, 0);
    expect("place", made.place, 0);
    expect("count", made.count, 188);
    expect("total", made.total, 4704);
    expect("carry", made.carry, 28000);
    expect("25 March", sum(0, 96), 2402);
    expect("26 March", sum(96, 188), 2302);
    expect("entry beyond the figures", out[188], 7);
    struct slp_expansion_report tight = slp_expand(file, sizeof file, 1, 20000325, 20000326, no_holidays, 0, 1000, 0, out, 187);
    expect("expand into 187 entries", tight.number, 12);
    expect("entries needed", tight.place, 188);
    expect("entries that are always enough", SLP_LONGEST_SERIES, 1461 * 100);
}

static void put_number(uint8_t *at, uint32_t number)
{
    for (int i = 0; i < 4; i++)
        at[i] = (uint8_t)(number >> (24 - 8 * i));
}

static void text(void)
{
    static const char lines[] = "2000-03-25 T2 96 2402\n2000-03-26 T3 92 2302\ntotal 2 188 4704 28000\n";
    static uint8_t input[15 + SLP_FILE_LENGTH(1)];
    static uint8_t page[SLP_PAGE_LENGTH];
    input[0] = 1;
    put_number(input + 1, 20000325);
    put_number(input + 5, 20000326);
    put_number(input + 9, 1000);
    memcpy(input + 15, file, sizeof file);
    struct slp_response_report made = slp_respond(input, sizeof input, page, sizeof page);
    expect("respond", made.number, 0);
    expect("place", made.place, 0);
    expect("length", made.length, sizeof lines - 1);
    expect("lines", (uint64_t)memcmp(page, lines, sizeof lines - 1), 0);
    struct slp_response_report tight = slp_respond(input, sizeof input, page, sizeof lines - 2);
    expect("respond on a page that is a byte short", tight.number, 12);
    expect("bytes needed", tight.place, sizeof lines - 1);
}

/* Each constant adds the date of its own day to the list of 2000. */
static void regional_days(void)
{
    static const struct {
        const char *name;
        uint8_t choice;
        uint32_t date;
    } days[] = {
        {"Epiphany", SLP_EPIPHANY, 20000106},
        {"Corpus Christi", SLP_CORPUS_CHRISTI, 20000622},
        {"Assumption Day", SLP_ASSUMPTION, 20000815},
        {"Reformation Day", SLP_REFORMATION, 20001031},
        {"All Saints' Day", SLP_ALL_SAINTS, 20001101},
        {"Day of Repentance", SLP_REPENTANCE, 20001122},
    };
    static uint32_t list[SLP_MOST_HOLIDAYS];
    for (size_t day = 0; day < sizeof days / sizeof days[0]; day++) {
        size_t length = slp_holidays(2000, days[day].choice, list, SLP_MOST_HOLIDAYS).length;
        size_t found = 0;
        for (size_t entry = 0; entry < length; entry++)
            found += list[entry] == days[day].date;
        expect(days[day].name, found, 1);
        expect("length with one regional day", length, 12);
    }
}

static void holiday_list(void)
{
    static uint32_t list[SLP_MOST_HOLIDAYS];
    list[12] = 7;
    struct slp_holidays_report made = slp_holidays(2000, SLP_CORPUS_CHRISTI, list, SLP_MOST_HOLIDAYS);
    expect("holidays", made.number, 0);
    expect("place", made.place, 0);
    expect("length", made.length, 12);
    expect("New Year's Day", list[0], 20000101);
    expect("Corpus Christi", list[8], 20000622);
    expect("second day of Christmas", list[11], 20001226);
    expect("entry beyond the list", list[12], 7);
    expect("day type of Corpus Christi", slp_day(20000622, list, made.length).day_type, 3);
    expect("length with all regional days", slp_holidays(2000, 63, list, SLP_MOST_HOLIDAYS).length, SLP_MOST_HOLIDAYS);
    expect("holidays of 1995", slp_holidays(1995, 0, list, SLP_MOST_HOLIDAYS).number, 14);
    expect("choice 64", slp_holidays(2000, 64, list, SLP_MOST_HOLIDAYS).number, 15);
    struct slp_holidays_report tight = slp_holidays(2000, SLP_CORPUS_CHRISTI, list, 11);
    expect("holidays in 11 entries", tight.number, 16);
    expect("entries needed for the list", tight.place, 12);
}

static int64_t differences[SLP_MOST_PERIODS];

/* Three periods of a day each from 24 March 2000 on, with 2 kWh metered on each. */
static struct slp_check_report settled(uint32_t last, size_t metered_length, size_t out_length)
{
    static const uint32_t starts[] = {20000324, 20000325, 20000326};
    static const uint32_t metered[] = {2, 2, 2};
    return slp_deliveries(file, sizeof file, 1, 20000324, last, starts, 3, metered, metered_length, no_holidays, 0, 1000,
                          differences, out_length);
}

static void over_and_under_deliveries(void)
{
    differences[3] = 7;
    struct slp_check_report made = settled(20000326, 3, SLP_MOST_PERIODS);
    expect("deliveries", made.number, 0);
    expect("place", made.place, 0);
    expect("24 March", (uint64_t)-differences[0], 402);
    expect("25 March", (uint64_t)-differences[1], 402);
    expect("26 March", (uint64_t)-differences[2], 303);
    expect("entry beyond the differences", (uint64_t)differences[3], 7);
    expect("deliveries with two metered values", settled(20000326, 2, 3).number, 17);
    struct slp_check_report late = settled(20000325, 3, 3);
    expect("deliveries with a period behind the span", late.number, 18);
    expect("its index", late.place, 2);
    struct slp_check_report tight = settled(20000326, 3, 2);
    expect("deliveries in two entries", tight.number, 12);
    expect("periods", tight.place, 3);
}

static void day_page(void)
{
    static const char lines[] = "2000-03-25 T2     96             2402\n"
                                "2000-03-26 T3     92             2302\n"
                                "total      --    188             4704\n";
    static uint8_t page[SLP_LONGEST_DAY_PAGE];
    expect("length of a page of two days", SLP_DAY_PAGE_LENGTH(2), sizeof lines - 1);
    expect("bytes that are always enough", SLP_LONGEST_DAY_PAGE, SLP_DAY_PAGE_LENGTH(1461));
    page[114] = 7;
    struct slp_expansion_report made =
        slp_page(file, sizeof file, 1, 20000325, 20000326, no_holidays, 0, 1000, 0, page, sizeof page);
    expect("page", made.number, 0);
    expect("place", made.place, 0);
    expect("count", made.count, 188);
    expect("total", made.total, 4704);
    expect("carry", made.carry, 28000);
    expect("lines of the page", (uint64_t)memcmp(page, lines, sizeof lines - 1), 0);
    expect("byte beyond the page", page[114], 7);
    struct slp_expansion_report tight = slp_page(file, sizeof file, 1, 20000325, 20000326, no_holidays, 0, 1000, 0, page, 113);
    expect("page of 113 bytes", tight.number, 19);
    expect("bytes needed for the page", tight.place, 114);
}

int main(void)
{
    file_calls();
    day_call();
    listing();
    text();
    regional_days();
    holiday_list();
    over_and_under_deliveries();
    day_page();
    return faults == 0 ? 0 : 1;
}

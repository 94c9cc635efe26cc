/* A stop's board, then with a cancellation, then with that withdrawn, then with the same again, come in parts. `tools/run-c-example` builds and runs it. */
#define _DEFAULT_SOURCE /* timegm */
#include <stdio.h>
#include <string.h>
#include <time.h>

#include "desk.h"

static const char planning[] =
    "\\Gplan\r\n"
    "\\TLOCALSERVICEGROUPPASSTIME\r\n"
    "\\LDataOwnerCode|LocalServiceLevelCode|LinePlanningNumber|VehicleJourneyNumber|FortifyOrderNumber|UserStopCode"
    "|UserStopOrderNumber|DestinationCode|TargetArrivalTime|TargetDepartureTime|JourneyStopType\r\n"
    "CXX|1|A031|122|0|S1|15|CIOS|24:10:00|24:10:00|INTERMEDIATE\r\n"
    "CXX|2|A031|101|0|S1|15|CIOS|00:05:00|00:05:00|INTERMEDIATE\r\n";

static const char calendar[] =
    "\\Gcalendar\r\n"
    "\\TLOCALSERVICEGROUPVALIDITY\r\n"
    "\\LDataOwnerCode|LocalServiceLevelCode|OperationDate\r\n"
    "CXX|1|2016-03-01\r\n"
    "CXX|2|2016-03-02\r\n";

static const char cancellation[] =
    "\\Gpasstimes\r\n"
    "\\TDATEDPASSTIME\r\n"
    "\\LDataOwnerCode|OperationDate|LinePlanningNumber|VehicleJourneyNumber|FortifyOrderNumber|UserStopCode|UserStopOrderNumber"
    "|DestinationCode|LastUpdateTimeStamp|TripStopStatus|ExpectedArrivalTime|ExpectedDepartureTime|JourneyStopType|ShowCancelledTrip\r\n"
    "CXX|2016-03-02|A031|101|0|S1|15|CIOS|2016-03-01T23:40:00+01:00|CANCEL|00:05:00|00:05:00|INTERMEDIATE|1\r\n";

/* sender 3 may send for CXX */
enum { SENDER = 3 };
static const char registered[DESK_PAIR] = "\003CXX";

/* the day keeps its counts from call to call */
static uint8_t book[DESK_BOOK], table[DESK_TABLE];
static struct desk_day day = {.book = book, .book_len = sizeof book, .table = table, .table_len = sizeof table};

#define TEXT(s) (const uint8_t *)(s), sizeof(s) - 1

static unsigned number_at(const uint8_t *bytes, int width)
{
    unsigned n = 0;
    for (int i = 0; i < width; i++) n = n << 8 | bytes[i];
    return n;
}

static void print_row(const uint8_t *row)
{
    static const char *const statuses[] = {[DESK_PLANNED] = "PLANNED", [DESK_CANCEL] = "CANCEL",   [DESK_UNKNOWN] = "UNKNOWN",
                                           [DESK_DRIVING] = "DRIVING", [DESK_ARRIVED] = "ARRIVED", [DESK_PASSED] = "PASSED"};
    unsigned date = number_at(row + DESK_DATE_AT, DESK_DATE_WIDE);
    /* 24:10:00 is ten past midnight on the day after: timegm carries the seconds over */
    struct tm t = {.tm_year = (int)(date / 10000) - 1900, .tm_mon = (int)(date / 100 % 100) - 1, .tm_mday = (int)(date % 100),
                   .tm_sec = (int)number_at(row + DESK_DEPARTURE_AT, DESK_TIME_WIDE)};
    char clock[20];
    timegm(&t);
    strftime(clock, sizeof clock, "%Y-%m-%d %H:%M:%S", &t);
    /* texts are padded with zeros, and one of ten bytes has none behind it */
    printf("%s %.*s %.*s %s\n", clock, DESK_TEXT_WIDE, row + DESK_LINE_AT, DESK_TEXT_WIDE, row + DESK_DESTINATION_AT, statuses[row[DESK_STATUS_AT]]);
}

/* the board of S1, half an hour from 23:50:00 on. Its places are good until the table changes, so the rows are printed at once. */
static void print_board(void)
{
    uint32_t places[8];
    uint64_t board[DESK_BOARD_ANSWER];
    puts("BOARD CXX S1 2016-03-01 23:50:00 1800");
    desk_day_board(&day, TEXT("CXX"), TEXT("S1"), 20160301, 85800, 1800, places, 8, board);
    for (uint64_t i = 0; i < board[DESK_ANSWER_VALUE]; i++) print_row(table + places[i] * DESK_ROW);
    printf("END %u %u\n", (unsigned)board[DESK_ANSWER_VALUE], (unsigned)board[DESK_ANSWER_SECOND]);
}

static int refused(const char *call, uint32_t number)
{
    if (number == DESK_ACCEPTED) return 0;
    printf("%s: refused with %u, %u, %u\n", call, (unsigned)number, (unsigned)day.answer[DESK_ANSWER_VALUE], (unsigned)day.answer[DESK_ANSWER_SECOND]);
    return 1;
}

/* a message as a line hands it over: a hundred bytes at a time, cut wherever that is */
static uint32_t send_in_parts(const uint8_t *dossier, size_t length)
{
    static uint8_t staging[DESK_STAGING], line[DESK_LINE];
    uint64_t feed[DESK_FEED];
    desk_feed_begin(SENDER, DESK_OLD_FORM, feed);
    for (size_t at = 0; at < length; at += 100)
        desk_feed(dossier + at, length - at < 100 ? length - at : 100, (const uint8_t *)registered, sizeof registered, staging, sizeof staging, line, feed);
    return desk_day_feed_end(&day, (const uint8_t *)registered, sizeof registered, staging, sizeof staging, feed);
}

int main(void)
{
    if (refused("open", desk_day_open(&day, TEXT(planning), TEXT(calendar)))) return 1;
    print_board();

    if (refused("message", desk_day_message(&day, TEXT(cancellation), SENDER, DESK_OLD_FORM, (const uint8_t *)registered, sizeof registered))) return 1;
    uint32_t message = (uint32_t)day.answer[DESK_ANSWER_VALUE];
    printf("\nmessage %u:\n", (unsigned)message);
    print_board();

    if (refused("withdraw", desk_day_withdraw(&day, message, SENDER))) return 1;
    printf("\nmessage %u withdrawn:\n", (unsigned)message);
    print_board();

    if (refused("parts", send_in_parts(TEXT(cancellation)))) return 1;
    printf("\nmessage %u, in parts:\n", (unsigned)day.answer[DESK_ANSWER_VALUE]);
    print_board();
    return 0;
}

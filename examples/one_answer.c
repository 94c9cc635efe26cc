/* The plain calls with one array for every answer: a board's three numbers leave the day's counts in it. `tools/run-c-example` builds and runs it. */
#include <stdio.h>

#include "desk.h"

static const char planning[] =
    "\\Gplan\r\n"
    "\\TLOCALSERVICEGROUPPASSTIME\r\n"
    "\\LDataOwnerCode|LocalServiceLevelCode|LinePlanningNumber|VehicleJourneyNumber|FortifyOrderNumber|UserStopCode"
    "|UserStopOrderNumber|DestinationCode|TargetArrivalTime|TargetDepartureTime|JourneyStopType\r\n"
    "CXX|1|A031|122|0|S1|15|CIOS|24:10:00|24:10:00|INTERMEDIATE\r\n"
    "CXX|2|A031|101|0|S1|15|CIOS|00:05:00|00:05:00|INTERMEDIATE\r\n";

static const char calendar[] =
    "\\Gcalendar\r\n"
    "\\TLOCALSERVICEGROUPVALIDITY\r\n"
    "\\LDataOwnerCode|LocalServiceLevelCode|OperationDate\r\n"
    "CXX|1|2016-03-01\r\n"
    "CXX|2|2016-03-02\r\n";

static const char cancellation[] =
    "\\Gpasstimes\r\n"
    "\\TDATEDPASSTIME\r\n"
    "\\LDataOwnerCode|OperationDate|LinePlanningNumber|VehicleJourneyNumber|FortifyOrderNumber|UserStopCode|UserStopOrderNumber"
    "|DestinationCode|LastUpdateTimeStamp|TripStopStatus|ExpectedArrivalTime|ExpectedDepartureTime|JourneyStopType|ShowCancelledTrip\r\n"
    "CXX|2016-03-02|A031|101|0|S1|15|CIOS|2016-03-01T23:40:00+01:00|CANCEL|00:05:00|00:05:00|INTERMEDIATE|1\r\n";

static uint8_t book[DESK_BOOK], table[DESK_TABLE];
static uint64_t answer[DESK_ANSWER];

#define TEXT(s) (const uint8_t *)(s), sizeof(s) - 1

static void told(const char *call)
{
    printf("%s: %u, used %u, rows %u\n", call, (unsigned)answer[DESK_ANSWER_NUMBER], (unsigned)answer[DESK_ANSWER_USED], (unsigned)answer[DESK_ANSWER_ROWS]);
}

int main(void)
{
    static const char registered[DESK_PAIR] = "\003CXX";
    uint32_t places[8];

    desk_open(TEXT(planning), TEXT(calendar), book, sizeof book, table, sizeof table, 0, 0, answer);
    told("open");
    desk_board(TEXT("CXX"), TEXT("S1"), 20160301, 85800, 1800, table, sizeof table, answer[DESK_ANSWER_ROWS], places, 8, answer);
    told("board");
    desk_message(TEXT(cancellation), 3, DESK_OLD_FORM, (const uint8_t *)registered, sizeof registered, book, sizeof book, table, sizeof table,
                 answer[DESK_ANSWER_USED], answer[DESK_ANSWER_ROWS], answer);
    told("message");
    desk_withdraw((uint32_t)answer[DESK_ANSWER_VALUE], DESK_SENDER, book, sizeof book, table, sizeof table, answer[DESK_ANSWER_USED],
                  answer[DESK_ANSWER_ROWS], answer);
    told("withdraw");
    return 0;
}

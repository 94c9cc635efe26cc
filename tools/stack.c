/* How much stack each call of the C face takes: a thread whose stack is filled with one byte makes the call, and what it has written over is counted.
   Every call here is accepted, so that it goes its whole way: once with few rows, once with as many as a dossier takes. */
#define _GNU_SOURCE
#include <pthread.h>
#include <stdint.h>
#include <stdio.h>
#include <string.h>
#include <sys/mman.h>

#include "desk.h"

enum { STACK = 8 << 20, MARK = 0xa5, SENDER = 3, FEW = 2, MANY = 500 };

static const char planning_labels[] =
    "\\Gplan\r\n"
    "\\TLOCALSERVICEGROUPPASSTIME\r\n"
    "\\LDataOwnerCode|LocalServiceLevelCode|LinePlanningNumber|VehicleJourneyNumber|FortifyOrderNumber|UserStopCode"
    "|UserStopOrderNumber|DestinationCode|TargetArrivalTime|TargetDepartureTime|JourneyStopType\r\n";

static const char calendar_text[] =
    "\\Gcalendar\r\n"
    "\\TLOCALSERVICEGROUPVALIDITY\r\n"
    "\\LDataOwnerCode|LocalServiceLevelCode|OperationDate\r\n"
    "CXX|1|2016-03-01\r\n";

static const char message_labels[] =
    "\\Gpasstimes\r\n"
    "\\TDATEDPASSTIME\r\n"
    "\\LDataOwnerCode|OperationDate|LinePlanningNumber|VehicleJourneyNumber|FortifyOrderNumber|UserStopCode|UserStopOrderNumber"
    "|DestinationCode|LastUpdateTimeStamp|TripStopStatus|ExpectedArrivalTime|ExpectedDepartureTime|JourneyStopType\r\n";

static const char registered[DESK_PAIR] = "\003CXX";

static uint8_t book[DESK_BOOK], table[DESK_TABLE];
static struct desk_day day = {.book = book, .book_len = sizeof book, .table = table, .table_len = sizeof table};
static char planning[DESK_DOSSIER + 1], message[DESK_DOSSIER + 1];
static uint32_t places[DESK_ROWS];
static uint64_t board_answer[DESK_BOARD_ANSWER];
static uint8_t staging[DESK_STAGING], line[DESK_LINE];
static uint64_t feed[DESK_FEED];
static const char *part, *part_end;
static uint32_t number;

#define TEXT(s) (const uint8_t *)(s), strlen(s)

/* Dossiers of so many rows. */
static void write_dossiers(int rows)
{
    char *plan = planning + sprintf(planning, "%s", planning_labels);
    char *said = message + sprintf(message, "%s", message_labels);
    for (int i = 0; i < rows; i++) {
        plan += sprintf(plan, "CXX|1|A031|%d|0|S1|15|CIOS|24:10:00|24:10:00|INTERMEDIATE\r\n", i);
        said += sprintf(said, "CXX|2016-03-01|A031|%d|0|S1|15|CIOS|2016-03-01T23:40:00+01:00|CANCEL|00:05:00|00:05:00|INTERMEDIATE\r\n", i);
    }
}

static void *nothing(void *unused) { return unused; }

static void *open_day(void *unused)
{
    number = desk_day_open(&day, TEXT(planning), TEXT(calendar_text));
    return unused;
}

static void *take_message(void *unused)
{
    number = desk_day_message(&day, TEXT(message), SENDER, DESK_OLD_FORM, (const uint8_t *)registered, sizeof registered);
    return unused;
}

static void *begin_feed(void *unused)
{
    number = desk_feed_begin(SENDER, DESK_OLD_FORM, feed);
    return unused;
}

static void *feed_part(void *unused)
{
    number = desk_feed((const uint8_t *)part, (size_t)(part_end - part), (const uint8_t *)registered, sizeof registered, staging, sizeof staging, line, feed);
    return unused;
}

static void *end_feed(void *unused)
{
    number = desk_day_feed_end(&day, (const uint8_t *)registered, sizeof registered, staging, sizeof staging, feed);
    return unused;
}

static void *withdraw(void *unused)
{
    number = desk_day_withdraw(&day, 1, SENDER);
    return unused;
}

static void *show_board(void *unused)
{
    number = desk_day_board(&day, TEXT("CXX"), TEXT("S1"), 20160301, 0, 86400, places, DESK_ROWS, board_answer);
    return unused;
}

/* The bytes of a thread's stack that are no longer the mark. */
static size_t taken(void *(*call)(void *))
{
    uint8_t *stack = mmap(NULL, STACK, PROT_READ | PROT_WRITE, MAP_PRIVATE | MAP_ANONYMOUS, -1, 0);
    pthread_attr_t attributes;
    pthread_t thread;
    size_t untouched = 0;
    memset(stack, MARK, STACK);
    pthread_attr_init(&attributes);
    pthread_attr_setstack(&attributes, stack, STACK);
    pthread_create(&thread, &attributes, call, NULL);
    pthread_join(thread, NULL);
    while (untouched < STACK && stack[untouched] == MARK) untouched++;
    munmap(stack, STACK);
    return STACK - untouched;
}

static void tell(const char *name, void *(*call)(void *))
{
    size_t bytes = taken(call);
    printf("%-15s %8zu%s\n", name, bytes - taken(nothing), number == DESK_ACCEPTED ? "" : ", refused");
}

static void tell_all(int rows)
{
    write_dossiers(rows);
    printf("bytes of stack, %d rows\n", rows);
    tell("desk_open", open_day);
    tell("desk_message", take_message);
    tell("desk_feed_begin", begin_feed);
    part = message;
    part_end = message + strlen(message) - 9;
    tell("desk_feed", feed_part);
    part = part_end;
    part_end = message + strlen(message);
    tell("  a line's end", feed_part);
    tell("desk_feed_end", end_feed);
    tell("desk_board", show_board);
    tell("desk_withdraw", withdraw);
}

int main(void)
{
    tell_all(FEW);
    tell_all(MANY);
    return 0;
}

/* Reads calendars with libical, for tools/try_readers.py.

       cc -o libical libical.c -lical && ./libical WORK

   Each line of WORK is the path of a calendar with one time zone, and after it moments in seconds
   from 1970, with one space before each. For each line one is printed: the offset at each moment in
   seconds, or `!` and what failed. The library has no names of moments, so none is printed. */

#include <libical/ical.h>
#include <stdio.h>
#include <stdlib.h>
#include <string.h>

static char *text_of(const char *path)
{
    FILE *file = fopen(path, "rb");
    char *text = malloc(1 << 21);
    size_t size = 0;

    if (file && text) {
        size = fread(text, 1, (1 << 21) - 1, file);
        text[size] = 0;
    }
    if (file)
        fclose(file);
    return size ? text : NULL;
}

static icaltimezone *zone_of(const char *path)
{
    char *text = text_of(path);
    icalcomponent *calendar = text ? icalcomponent_new_from_string(text) : NULL;
    icalcomponent *part = NULL;
    icaltimezone *zone = NULL;

    if (calendar)
        part = icalcomponent_get_first_component(calendar, ICAL_VTIMEZONE_COMPONENT);
    if (part)
        zone = icaltimezone_new();

    if (zone && !icaltimezone_set_component(zone, icalcomponent_new_clone(part))) {
        icaltimezone_free(zone, 1);
        zone = NULL;
    }
    if (calendar)
        icalcomponent_free(calendar);
    free(text);
    return zone;
}

static void print_offset(icaltimezone *zone, long long moment)
{
    icaltimetype time = icaltime_null_time();
    int daylight = 0;

    /* All days are counted from 1970 here, so that no year is beyond a type. */
    time.year = 1970;
    time.month = 1;
    time.day = 1;
    time.zone = icaltimezone_get_utc_timezone();
    icaltime_adjust(&time, (int)(moment / 86400), 0, 0, (int)(moment % 86400));
    printf(" %d", icaltimezone_get_utc_offset_of_utc_time(zone, &time, &daylight));
}

int main(int count, char **words)
{
    static char line[1 << 20];
    FILE *work = count == 2 ? fopen(words[1], "r") : NULL;

    if (!work) {
        fprintf(stderr, "usage: libical WORK, a file that can be read\n");
        return 1;
    }
    while (fgets(line, sizeof line, work)) {
        icaltimezone *zone = zone_of(strtok(line, " \n"));
        char *moment;

        if (!zone) {
            puts("! no time zone was read");
            continue;
        }
        while ((moment = strtok(NULL, " \n")))
            print_offset(zone, atoll(moment));
        putchar('\n');
        icaltimezone_free(zone, 1);
    }
    fclose(work);
    return 0;
}

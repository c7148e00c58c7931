/* The calendar that most use: days between two dates, weekdays, Easter, and Fridays that are a 13th.
   A date is a number as 20261129. Each date between the two is made of its day, and its day of it again.
   ARGS: 20230101 20261129 */
#include <stdio.h>

static int is_leap(int year) {
    return year % 4 == 0 && (year % 100 != 0 || year % 400 == 0);
}

static int days_of_month(int year, int month) {
    switch (month) {
    case 2:
        return is_leap(year) ? 29 : 28;
    case 4:
    case 6:
    case 9:
    case 11:
        return 30;
    default:
        return 31;
    }
}

/* A quotient that is rounded down. */
static int down(int a, int b) {
    return a / b - (a % b != 0 && (a < 0) != (b < 0));
}

/* The days since the first of January 1970, with years that begin in March. */
static int day_of(int year, int month, int day) {
    int shifted = month <= 2 ? year - 1 : year;
    int era = down(shifted, 400);
    int of_era = shifted - era * 400;
    int of_year = (153 * (month + (month > 2 ? -3 : 9)) + 2) / 5 + day - 1;
    return era * 146097 + of_era * 365 + of_era / 4 - of_era / 100 + of_year - 719468;
}

/* The same by counting, year by year and month by month. */
static int day_by_counting(int year, int month, int day) {
    int days = day - 1;
    for (int each = 1; each < month; each++)
        days += days_of_month(year, each);
    for (int each = 1970; each < year; each++)
        days += is_leap(each) ? 366 : 365;
    for (int each = year; each < 1970; each++)
        days -= is_leap(each) ? 366 : 365;
    return days;
}

/* The date of a day. */
static int date_of(int day) {
    day += 719468;
    int era = down(day, 146097);
    int of_era = day - era * 146097;
    int year_of_era = (of_era - of_era / 1460 + of_era / 36524 - of_era / 146096) / 365;
    int of_year = of_era - (365 * year_of_era + year_of_era / 4 - year_of_era / 100);
    int shifted = (5 * of_year + 2) / 153;
    int month = shifted < 10 ? shifted + 3 : shifted - 9;
    int year = year_of_era + era * 400 + (month <= 2);
    return (year * 100 + month) * 100 + of_year - (153 * shifted + 2) / 5 + 1;
}

/* 0 is a Sunday. */
static int weekday(int day) {
    return (day % 7 + 11) % 7;
}

/* Zeller's rule for the same. */
static int weekday_by_zeller(int year, int month, int day) {
    if (month <= 2) {
        month += 12;
        year--;
    }
    int century = year / 100, rest = year % 100;
    return (day + 13 * (month + 1) / 5 + rest + rest / 4 + century / 4 + 5 * century + 6) % 7;
}

/* Easter Sunday, by Gauss and others. */
static int easter(int year) {
    int a = year % 19, b = year / 100, c = year % 100;
    int d = b / 4, e = b % 4, f = (b + 8) / 25, g = (b - f + 1) / 3;
    int h = (19 * a + b - d - g + 15) % 30;
    int i = c / 4, k = c % 4, l = (32 + 2 * e + 2 * i - h - k) % 7;
    int m = (a + 11 * h + 22 * l) / 451;
    int month = (h + l - 7 * m + 114) / 31, day = (h + l - 7 * m + 114) % 31 + 1;
    return (year * 100 + month) * 100 + day;
}

static int year_of(int date) { return date / 10000; }
static int month_of(int date) { return date / 100 % 100; }
static int day_part(int date) { return date % 100; }

long days(long from, long to) {
    int first = day_of(year_of((int)from), month_of((int)from), day_part((int)from));
    int last = day_of(year_of((int)to), month_of((int)to), day_part((int)to));
    int fridays = 0, different = 0;
    printf("%d\n", last - first);
    for (int day = first; day <= last; day++) {
        int date = date_of(day);
        int year = year_of(date), month = month_of(date), part = day_part(date);
        different += day_of(year, month, part) != day;
        different += weekday_by_zeller(year, month, part) != weekday(day);
        if (part == 1 && month == 1) {
            different += day_by_counting(year, month, part) != day;
            printf("%d\n", easter(year));
        }
        fridays += part == 13 && weekday(day) == 5;
    }
    printf("%d\n", weekday(last));
    printf("%d\n", fridays);
    return different;
}

/* The decimal digits of a double, as many as are asked for, rounded to nearest, ties to even. */
#ifndef GEYSERPAN_DECIMAL_H
#define GEYSERPAN_DECIMAL_H

/* No double has more than 767 digits; nine come at a time, and there may be one behind the last that is asked for. */
#define DECIMAL_DIGITS 792

/* 0.DDD.. * 10^point, the first digit not 0; no digits are 0. */
struct decimal {
    int count, point;
    char digits[DECIMAL_DIGITS]; /* '0' to '9' */
};

/* The decimal that was made last: its address is known, so that no access to it has to be tested. */
extern struct decimal __decimal;

/* Of a finite number that isn't below 0: digits up to so many places behind the point, or so many digits in all.
   Digits that would all be 0 from some place on may be left out. */
void __decimal_to_places(double number, int places);
void __decimal_to_digits(double number, int digits);

#endif

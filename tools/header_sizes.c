/* Writes the sizes that the header gives, in the form of the program test_sizes. */
#include <stdio.h>

#include "weimrukas.h"

int main(void) {
    printf("lines %d\n", WEIMRUKAS_MOST_LINES);
    printf("sweeps %d\n", WEIMRUKAS_MOST_SWEEPS);
    printf("processors %d\n", WEIMRUKAS_MOST_PROCESSORS);
    printf("words %d\n", WEIMRUKAS_ARRAY_WORDS);
    printf("tile %d\n", WEIMRUKAS_TILE_WORDS);
    printf("longest sheet %d\n", WEIMRUKAS_LONG_SHEET_LENGTH(WEIMRUKAS_MOST_LINES));
    printf("longest text %d\n", WEIMRUKAS_TEXT_LENGTH(WEIMRUKAS_MOST_LINES));
    for (int n = 1; n <= WEIMRUKAS_MOST_LINES; n++) {
        printf("sheet %d\n", WEIMRUKAS_SHEET_LENGTH(n));
        printf("long sheet %d\n", WEIMRUKAS_LONG_SHEET_LENGTH(n));
        printf("text %d\n", WEIMRUKAS_TEXT_LENGTH(n));
    }
    return 0;
}

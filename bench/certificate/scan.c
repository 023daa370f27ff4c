/* Reads the numbers of a text from stdin, and says how many there are and how many microseconds the reading took. It keeps none of
   them and tests nothing of the text's form. */
#include <stdio.h>
#include <stdlib.h>
#include <time.h>

int main(void)
{
    size_t room = (size_t)1 << 28;
    char *text = malloc(room);
    size_t length = text ? fread(text, 1, room, stdin) : 0;
    struct timespec start, end;
    clock_gettime(CLOCK_MONOTONIC, &start);
    unsigned long count = 0, sum = 0, number = 0;
    int inside = 0;
    for (size_t at = 0; at < length; at++) {
        unsigned digit = (unsigned char)text[at] - '0';
        if (digit < 10) {
            number = number * 10 + digit;
            inside = 1;
        } else if (inside) {
            sum += number;
            count++;
            number = 0;
            inside = 0;
        }
    }
    clock_gettime(CLOCK_MONOTONIC, &end);
    long time = (end.tv_sec - start.tv_sec) * 1000000L + (end.tv_nsec - start.tv_nsec) / 1000;
    printf("%lu numbers of sum %lu, %ld\n", count, sum, time);
    return 0;
}

/* The report for the file on standard input, as the program `gatesorrel` prints it. */
#include <stdio.h>
#include "gatesorrel.h"

static uint8_t file[GATESORREL_FILE + 1];
static uint16_t scratch[GATESORREL_SCRATCH];
static uint8_t report[GATESORREL_REPORT];

int main(void)
{
    size_t line, length;
    size_t n = fread(file, 1, sizeof file, stdin);
    uint8_t number = gatesorrel_check(file, n, scratch, GATESORREL_SCRATCH, report, sizeof report, &line, &length);
    if (number != 0)
        return printf("refused %u line %zu\n", number, line) < 0;
    return fwrite(report, 1, length, stdout) != length;
}

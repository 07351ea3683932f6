/* A master on libmodbus: a command a line on standard input, an answer a line on standard output.
   n NODE          the node from now on                     ok
   r REGISTER      reads a 32-bit word, low half first      the word
   w REGISTER WORD writes one                               ok
   q REGISTER N    reads N registers                        ok
   i REGISTER      reads two input registers, function 4    ok
   s REGISTER N    writes one register, function 6          ok
   p N REGISTER    reads N times                            median and 99th of 100 in ms, polls a second, failures
   An exception answers "exception NUMBER", no reply "none". */

#include <errno.h>
#include <modbus.h>
#include <stdint.h>
#include <stdio.h>
#include <stdlib.h>
#include <string.h>
#include <time.h>

static modbus_t *line;

static double now(void)
{
    struct timespec t;
    clock_gettime(CLOCK_MONOTONIC, &t);
    return t.tv_sec + t.tv_nsec / 1e9;
}

static int by_size(const void *a, const void *b)
{
    double x = *(const double *)a, y = *(const double *)b;
    return (x > y) - (x < y);
}

/* What a call that gave `count` registers is answered with. */
static void say(int count)
{
    int exception = errno - MODBUS_ENOBASE;
    if (count >= 0)
        printf("ok\n");
    else if (exception >= 1 && exception <= 11)
        printf("exception %d\n", exception);
    else
        printf("none\n");
}

static int read_word(int at, int32_t *word)
{
    uint16_t half[2];
    int count = modbus_read_registers(line, at, 2, half);
    *word = (int32_t)((uint32_t)half[1] << 16 | half[0]);
    return count;
}

static void polls(int count, int at)
{
    double *took = malloc(count * sizeof *took), start = now();
    int failures = 0;
    for (int i = 0; i < count; i++) {
        int32_t word;
        double sent = now();
        failures += read_word(at, &word) < 0;
        took[i] = (now() - sent) * 1e3;
    }
    double all = now() - start;
    qsort(took, count, sizeof *took, by_size);
    printf("%.3f %.3f %.0f %d\n", took[count / 2], took[count * 99 / 100], count / all, failures);
    free(took);
}

static void command(const char *text)
{
    uint16_t half[125];
    int a = 0, b = 0;
    int32_t word;
    char kind;
    sscanf(text, "%c %d %d", &kind, &a, &b);
    switch (kind) {
    case 'n':
        say(modbus_set_slave(line, a));
        break;
    case 'r':
        if (read_word(a, &word) >= 0)
            printf("%d\n", word);
        else
            say(-1);
        break;
    case 'w':
        half[0] = (uint32_t)b & 0xFFFF;
        half[1] = (uint32_t)b >> 16;
        say(modbus_write_registers(line, a, 2, half));
        break;
    case 'q':
        say(modbus_read_registers(line, a, b, half));
        break;
    case 'i':
        say(modbus_read_input_registers(line, a, 2, half));
        break;
    case 's':
        say(modbus_write_register(line, a, b));
        break;
    case 'p':
        polls(a, b);
        break;
    default:
        printf("no such command\n");
    }
}

int main(int count, char **words)
{
    char text[256];
    line = count == 2 ? modbus_new_rtu(words[1], 19200, 'N', 8, 1) : NULL;
    if (line == NULL || modbus_set_slave(line, 1) < 0 || modbus_connect(line) < 0) {
        fprintf(stderr, "libmodbus_master LINE: %s\n", modbus_strerror(errno));
        return 1;
    }
    modbus_set_response_timeout(line, 0, 400000);
    while (fgets(text, sizeof text, stdin) != NULL) {
        command(text);
        fflush(stdout);
    }
    modbus_close(line);
    modbus_free(line);
    return 0;
}

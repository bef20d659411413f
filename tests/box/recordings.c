/*
 * The calls for recorded drills, on cases from standard input: a line for each case, and a line back with its letter and all that the calls gave.
 * tests/second makes the cases and compares the answers: second recordings COUNT SEED bin/box tests/box/recordings.c
 *
 *     R LENGTH BYTES                         fz_replay of this recording, into an output of this length: returned, value, summary, output
 *     W MODE LENGTH PRESS...                 fz_record of these presses, into an output of this length: returned, value, output
 *     S BYTES                                this recording step by step, fz_begin: returned, value, at; then fz_next up to the end or the first
 *                                            refusal, and there once more: a bar, returned, value, at, in_word, milliseconds
 *     N MODE AT IN_WORD MILLISECONDS BYTES   one fz_next with these numbers: returned, value, at, in_word, milliseconds
 *
 * Numbers are decimal, bytes hexadecimal with nothing between them. What a call may leave as it was holds UNWRITTEN or '#' before it; of the output
 * GUARD bytes on either side are given too, and of the summary one number behind. Exit status 1: a line that is no case, or too long for the buffers.
 */
#include "../../box/felcantuzza.h"

extern int getchar_unlocked(void);
extern int putchar_unlocked(int byte);
extern void exit(int status);

enum { RECORDING = 4096, PRESSES = 2048, OUTPUT = 16384, GUARD = 8, UNWRITTEN = 4711 };

static unsigned char recording[RECORDING + GUARD], output[GUARD + OUTPUT + GUARD];
static unsigned long presses[PRESSES];

static int byte; /* of the line, read and not yet used */

static void forward(void) { byte = getchar_unlocked(); }

static void must(int holds) {
    if (!holds)
        exit(1);
}

static unsigned long number(void) {
    unsigned long n = 0;
    must(byte == ' ');
    for (forward(); byte >= '0' && byte <= '9'; forward())
        n = 10 * n + (unsigned long)(byte - '0');
    return n;
}

static int digit(void) {
    const int d = byte >= 'a' ? byte - 'a' + 10 : byte - '0';
    must(d >= 0 && d < 16);
    forward();
    return d;
}

/* The recording at the end of a line. Behind it stand letters a, which a call that reads too far takes for keys. */
static unsigned long bytes(void) {
    unsigned long n = 0;
    must(byte == ' ');
    for (forward(); byte != '\n'; n++) {
        const int high = digit();
        must(n < RECORDING);
        recording[n] = (unsigned char)(16 * high + digit());
    }
    for (unsigned long i = n; i < n + GUARD; i++)
        recording[i] = 'a';
    return n;
}

/* The length of an output, which is filled. */
static unsigned long room(void) {
    const unsigned long length = number();
    must(length <= OUTPUT);
    for (unsigned long i = 0; i < GUARD + length + GUARD; i++)
        output[i] = '#';
    return length;
}

static void say(unsigned long n) {
    char digits[20];
    int count = 0;
    do {
        digits[count++] = (char)('0' + n % 10);
        n /= 10;
    } while (n > 0);
    putchar_unlocked(' ');
    while (count > 0)
        putchar_unlocked(digits[--count]);
}

static void say_output(unsigned long length) {
    putchar_unlocked(' ');
    for (unsigned long i = 0; i < GUARD + length + GUARD; i++) {
        putchar_unlocked("0123456789abcdef"[output[i] / 16]);
        putchar_unlocked("0123456789abcdef"[output[i] % 16]);
    }
}

static void replay(void) {
    const unsigned long length = room(), n = bytes();
    unsigned long summary[8], value = UNWRITTEN;
    for (int i = 0; i < 8; i++)
        summary[i] = UNWRITTEN;
    say(fz_replay(recording, n, output + GUARD, length, summary, &value));
    say(value);
    for (int i = 0; i < 8; i++)
        say(summary[i]);
    say_output(length);
}

static void record(void) {
    const unsigned long mode = number(), length = room();
    unsigned long n = 0, value = UNWRITTEN;
    for (; byte != '\n'; n++) {
        must(n < PRESSES);
        presses[n] = number();
    }
    say(fz_record((unsigned char)mode, presses, n, output + GUARD, length, &value));
    say(value);
    say_output(length);
}

/* One step, said; is there one behind it? */
static int step(unsigned long n, unsigned long mode, unsigned long *at, unsigned long *in_word, unsigned long *milliseconds) {
    unsigned long value = UNWRITTEN;
    const unsigned char refused = fz_next(recording, n, (unsigned char)mode, at, in_word, milliseconds, &value);
    say(refused);
    say(value);
    say(*at);
    say(*in_word);
    say(*milliseconds);
    return refused == 0 && value != 0;
}

static void walk(void) {
    const unsigned long n = bytes();
    unsigned long at = UNWRITTEN, in_word = 0, milliseconds = 0, mode = UNWRITTEN;
    const unsigned char refused = fz_begin(recording, n, &at, &mode);
    say(refused);
    say(mode);
    say(at);
    if (refused)
        return;
    /* No more turns than bytes: it ends also where the calls do not. */
    for (unsigned long turn = 0, ends = 0; turn <= n && ends < 2; turn++) {
        putchar_unlocked(' ');
        putchar_unlocked('|');
        ends += !step(n, mode, &at, &in_word, &milliseconds);
    }
}

static void step_from(void) {
    const unsigned long mode = number();
    unsigned long at = number(), in_word = number(), milliseconds = number();
    step(bytes(), mode, &at, &in_word, &milliseconds);
}

int main(void) {
    for (forward(); byte >= 0; forward()) {
        const int which = byte;
        putchar_unlocked(which);
        forward();
        if (which == 'R')
            replay();
        else if (which == 'W')
            record();
        else if (which == 'S')
            walk();
        else if (which == 'N')
            step_from();
        else
            must(0);
        must(byte == '\n');
        putchar_unlocked('\n');
    }
    return 0;
}

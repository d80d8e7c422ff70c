/* A yardstick for bench/replay.sh: a plain array of pages that reads the lines of the schedules `hits` and `recalls`, and writes the
   texts that Casper writes, each before it reads the next line. It has no cache, no server and no trail, checks only what it needs to
   answer these lines, and does without C's standard input and output. Only the bench compiles it. */
#include <stdint.h>
#include <stdlib.h>
#include <string.h>
#include <unistd.h>

enum { CLIENTS = 33, WORDS = 512, MOST_WORDS = 6, PIECE = 65536 };

struct word {
    const char *at;
    size_t length;
};

static uint64_t (*pages)[WORDS];
static unsigned *owner;           /* the client that wrote a page last, or 0 */
static unsigned asked[CLIENTS];   /* the page that another client wants of this one, counted from 1, or 0 */
static char piece[PIECE];         /* the part of the input that was read last, and where the next line begins in it */
static size_t next, filled;

static void put(const char *text, size_t length) {
    while (length > 0) {
        ssize_t count = write(1, text, length);
        if (count <= 0)
            exit(4);
        text += count;
        length -= (size_t)count;
    }
}

/* Puts a number behind a text, and what comes after it. */
static size_t with_number(char *text, size_t length, uint64_t number) {
    char digits[20];
    size_t count = 0;
    do {
        digits[count++] = (char)('0' + number % 10);
        number /= 10;
    } while (number > 0);
    while (count > 0)
        text[length++] = digits[--count];
    return length;
}

static void put_numbered(const char *before, uint64_t number) {
    char text[64];
    size_t length = strlen(before);
    memcpy(text, before, length);
    length = with_number(text, length, number);
    text[length++] = '\n';
    put(text, length);
}

/* The next line, without its newline, or null at the end. */
static char *take_line(size_t *length) {
    for (;;) {
        char *end = memchr(piece + next, '\n', filled - next);
        if (end) {
            char *line = piece + next;
            *length = (size_t)(end - line);
            next += *length + 1;
            return line;
        }
        memmove(piece, piece + next, filled - next);
        filled -= next;
        next = 0;
        ssize_t count = read(0, piece + filled, PIECE - filled);
        if (count <= 0)
            return NULL;
        filled += (size_t)count;
    }
}

static unsigned split(const char *line, size_t length, struct word *words) {
    unsigned count = 0;
    size_t at = 0;
    while (at < length && count < MOST_WORDS) {
        size_t begin = at;
        while (at < length && line[at] != ' ')
            at++;
        words[count].at = line + begin;
        words[count++].length = at - begin;
        while (at < length && line[at] == ' ')
            at++;
    }
    return count;
}

static int is(struct word word, const char *text) {
    return word.length == strlen(text) && memcmp(word.at, text, word.length) == 0;
}

static uint64_t number(struct word word) {
    uint64_t value = 0;
    for (size_t at = 0; at < word.length; at++)
        value = value * 10 + (uint64_t)(word.at[at] - '0');
    return value;
}

/* Whether a client may use a page, and otherwise asks its owner for it. */
static int may_use(unsigned who, unsigned page) {
    unsigned other = owner[page];
    if (other == 0 || other == who)
        return 1;
    asked[other] = page + 1;
    put_numbered("pending ", other);
    return 0;
}

static void give_up(unsigned who) {
    if (asked[who])
        owner[asked[who] - 1] = 0;
    asked[who] = 0;
    put("ok\n", 3);
}

/* Answers a line, and tells how many calls it completed. */
static unsigned answer(const struct word *words, unsigned count) {
    if (count == 2 && is(words[0], "join")) {
        put("joined\n", 7);
    } else if (count == 2 && is(words[0], "serve")) {
        give_up((unsigned)number(words[1]));
    } else if (count == 4 && is(words[0], "read")) {
        unsigned page = (unsigned)number(words[2]);
        if (!may_use((unsigned)number(words[1]), page))
            return 0;
        put_numbered("", pages[page][number(words[3])]);
        return 1;
    } else if (count == 5 && is(words[0], "write")) {
        unsigned who = (unsigned)number(words[1]), page = (unsigned)number(words[2]);
        if (!may_use(who, page))
            return 0;
        owner[page] = who;
        pages[page][number(words[3])] = number(words[4]);
        put("ok\n", 3);
        return 1;
    } else {
        put("bad line\n", 9);
        exit(8);
    }
    return 0;
}

int main(int count, char **words_given) {
    size_t size = count == 2 ? strtoul(words_given[1], NULL, 10) : 64;
    pages = calloc(size, sizeof *pages);
    owner = calloc(size, sizeof *owner);
    if (!pages || !owner)
        return 7;
    struct word words[MOST_WORDS];
    uint64_t lines = 0, calls = 0;
    size_t length;
    for (char *line = take_line(&length); line; line = take_line(&length)) {
        calls += answer(words, split(line, length, words));
        lines++;
    }
    char text[96] = "end lines=";
    size_t end = with_number(text, strlen(text), lines);
    memcpy(text + end, " calls=", 7);
    end = with_number(text, end + 7, calls);
    memcpy(text + end, " commits=0 rollbacks=0 version=1\n", 33);
    put(text, end + 33);
    return 0;
}

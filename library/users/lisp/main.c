/*
 * The driver: lisp [OPTION ..] [FILE ..]
 *
 * Runs the programs of the files in order, or that of the standard input where there is no file. Of several threads each runs
 * all of them, and what they print is written when all have ended, thread after thread. Ends with 0; with 1 where a program
 * ended by an error, which is told with its expression; with 2 where nothing was run.
 */
#define _POSIX_C_SOURCE 200809L

#include "team.h"

#include <errno.h>
#include <stdlib.h>
#include <string.h>

enum { MOST_PROGRAMS = 64 };

typedef struct orders {
    team team;
    program programs[MOST_PROGRAMS];
    char *texts[MOST_PROGRAMS];
    char size[64]; /* the program that defines `size` */
    bool counts;   /* whether to tell what the memory tells */
} orders;

static const char usage[] =
    "usage: lisp [OPTION ..] [FILE ..]\n"
    "  --threads N   threads, 1 to 8, each of which runs all files [1]\n"
    "  --helpers N   threads that help to collect, 0 to 3 [1]\n"
    "  --regions N   regions of the heap, 4 to 64 [64]\n"
    "  --words N     words of a region [1024]\n"
    "  --reserve N   regions that objects leave to collections [4]\n"
    "  --every N     each thread asks for a collection after N evaluations, 0 never [0]\n"
    "  --size N      the global `size`, which the standard programs look at\n"
    "  --counts      at the end, on the standard error: seconds, objects, and what else the memory tells\n";

/* A number of the command line into *to. */
static bool take_number(const char *word, size_t *to) {
    char *end = NULL;
    errno = 0;
    unsigned long long told = word == NULL ? 0 : strtoull(word, &end, 10);
    if (word == NULL || word[0] < '0' || word[0] > '9' || *end != '\0' || errno != 0 || told > UINT32_MAX) {
        return false;
    }
    *to = (size_t)told;
    return true;
}

static bool define_size(orders *of, size_t size) {
    int length = snprintf(of->size, sizeof of->size, "(define size %zu)", size);
    program made = {.name = "--size", .text = of->size, .length = (size_t)length};
    of->programs[of->team.count++] = made;
    return true;
}

/* Where the number of an option goes. */
static size_t *place_of(orders *of, const char *option) {
    memory_sizes *sizes = &of->team.sizes;
    const struct {
        const char *name;
        size_t *place;
    } places[] = {
        {"--threads", &sizes->mutators}, {"--helpers", &sizes->helpers}, {"--regions", &sizes->regions},
        {"--words", &sizes->region_words}, {"--reserve", &sizes->reserve},
    };
    for (size_t i = 0; i < sizeof places / sizeof places[0]; i++) {
        if (strcmp(option, places[i].name) == 0) {
            return places[i].place;
        }
    }
    return NULL;
}

/* An option with its number. */
static bool take_option(orders *of, const char *option, const char *word) {
    size_t number = 0;
    if (!take_number(word, &number)) {
        return false;
    }
    if (strcmp(option, "--every") == 0) {
        of->team.every = (uint32_t)number;
        return true;
    }
    if (strcmp(option, "--size") == 0) {
        return define_size(of, number);
    }
    size_t *place = place_of(of, option);
    if (place == NULL) {
        return false;
    }
    *place = number;
    return true;
}

/* All bytes of a file, which the caller frees. */
static char *read_all(FILE *from, size_t *length) {
    size_t room = 4096;
    char *text = malloc(room);
    *length = 0;
    while (text != NULL) {
        *length += fread(text + *length, 1, room - *length, from);
        if (*length < room) {
            break;
        }
        room *= 2;
        char *larger = realloc(text, room);
        if (larger == NULL) {
            free(text);
        }
        text = larger;
    }
    return text;
}

static bool take_file(orders *of, const char *name, FILE *from) {
    size_t length = 0;
    char *text = from == NULL || of->team.count == MOST_PROGRAMS ? NULL : read_all(from, &length);
    if (text == NULL) {
        fprintf(stderr, "lisp: %s cannot be read\n", name);
        return false;
    }
    program made = {.name = name, .text = text, .length = length};
    of->texts[of->team.count] = text;
    of->programs[of->team.count++] = made;
    return true;
}

static bool open_file(orders *of, const char *name) {
    FILE *from = fopen(name, "rb");
    bool taken = take_file(of, name, from);
    if (from != NULL) {
        fclose(from);
    }
    return taken;
}

/* The words of the command line. *files counts the files. */
static bool take_words(orders *of, int count, char **words, size_t *files) {
    for (int i = 1; i < count; i++) {
        if (strcmp(words[i], "--counts") == 0) {
            of->counts = true;
        } else if (words[i][0] == '-') {
            if (of->team.count == MOST_PROGRAMS || !take_option(of, words[i], i + 1 < count ? words[i + 1] : NULL)) {
                fputs(usage, stderr);
                return false;
            }
            i++;
        } else if (open_file(of, words[i])) {
            ++*files;
        } else {
            return false;
        }
    }
    return true;
}

/* What a thread printed, each line with its number where there are several. */
static void write_printed(const char *printed, size_t thread, bool several) {
    bool begins = true;
    for (const char *at = printed; at != NULL && *at != '\0'; at++) {
        if (begins && several) {
            printf("%zu: ", thread + 1);
        }
        putchar(*at);
        begins = *at == '\n';
    }
}

static void tell_count(uint64_t count, const char *of) {
    if (count > 0) {
        fprintf(stderr, ", %llu %s", (unsigned long long)count, of);
    }
}

static void tell_counts(const report *came) {
    fprintf(stderr, "%s: %.6f seconds, %.6f of processors", memory_name(), came->seconds, came->processor);
    tell_count(came->counts.made, "objects");
    tell_count(came->counts.words, "words");
    tell_count(came->counts.full_answers, "allocations without room");
    tell_count(came->counts.commands, "commands");
    tell_count(came->counts.collections, "collections");
    fputc('\n', stderr);
}

static int run_orders(orders *of) {
    report came;
    int status = 0;
    size_t threads = of->team.sizes.mutators;
    of->team.programs = of->programs;
    of->team.direct = threads == 1 ? stdout : NULL;
    run_team(&of->team, &came);
    if (came.refused != NULL) {
        fprintf(stderr, "lisp: the heap is not opened: %s\n", came.refused);
        return 2;
    }
    for (size_t i = 0; i < threads; i++) {
        write_printed(came.printed[i], i, threads > 1);
        status = came.done[i] ? status : 1;
    }
    if (of->counts) {
        tell_counts(&came);
    }
    free_report(&came);
    return status;
}

int main(int count, char **words) {
    static orders of = {.team = {.sizes = {.regions = 64, .region_words = 1024, .mutators = 1, .helpers = 1, .reserve = 4}}};
    size_t files = 0;
    bool taken = take_words(&of, count, words, &files) && (files > 0 || take_file(&of, "the standard input", stdin));
    int status = taken ? run_orders(&of) : 2;
    for (size_t i = 0; i < MOST_PROGRAMS; i++) {
        free(of.texts[i]);
    }
    return fflush(stdout) == 0 ? status : 2;
}

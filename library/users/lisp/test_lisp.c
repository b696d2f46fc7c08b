/*
 * Tests of the Lisp: the standard programs on heaps so small that they are collected all the time, with one thread and with several; wrong texts;
 * and heaps without room.
 *
 * usage: test_lisp FOLDER, where the programs are, each with what it has to print
 *
 * It is compiled with -DLISP_COUNTING_PAUSES.
 */
#include "team.h"

#include <stdlib.h>
#include <string.h>

/* A program with its heap. */
typedef struct trial {
    const char *program;
    size_t threads, helpers, regions, words;
    uint32_t every;
    uint64_t turns; /* how many times the words of the heap its objects take, at least */
} trial;

static const trial trials[] = {
    {"fib", 1, 1, 16, 256, 40, 2},      {"fib", 4, 1, 64, 64, 0, 8},         {"tak", 1, 0, 24, 160, 40, 1},
    {"tak", 2, 2, 24, 256, 60, 1},      {"queens", 1, 1, 24, 192, 40, 3},    {"queens", 3, 1, 32, 256, 100, 6},
    {"sort", 1, 1, 32, 320, 60, 3},     {"sort", 2, 1, 48, 512, 200, 2},     {"text", 1, 1, 32, 160, 50, 1},
    {"text", 2, 3, 32, 256, 100, 2},    {"churn", 1, 1, 32, 256, 60, 10},     {"churn", 4, 2, 48, 512, 200, 12},
    {"closures", 1, 1, 32, 320, 60, 1}, {"shared", 4, 1, 32, 256, 100, 1},   {"shared", 8, 3, 48, 256, 300, 1},
    {"names", 4, 1, 32, 256, 20, 0},    {"errors", 1, 1, 24, 256, 20, 0},    {"full", 1, 1, 16, 256, 100, 3},
    {"values", 1, 1, 32, 256, 20, 0},
};

enum { TRIALS = sizeof trials / sizeof trials[0] };

/* A text, and what is printed of it. */
typedef struct wrong {
    const char *text, *printed;
} wrong;

static const wrong wrongs[] = {
    {"(", "#<error: line 1: a list has no end>"},
    {")", "#<error: line 1: ) without (>"},
    {"\n\n'", "#<error: line 3: a value wanted behind '>"},
    {"\"abc", "#<error: line 1: a string has no end>"},
    {"(1 . )", "#<error: line 1: ) without (>"},
    {"(1 . 2 3)", "#<error: line 1: one value wanted behind the dot>"},
    {"99999999999999999999", "#<error: line 1: number too large>"},
    {"#q", "#<error: line 1: #t or #f wanted>"},
    {"(if)", "#<error: wrong form: (if)>"},
    {"(let ((a)) 1)", "#<error: wrong form: ((a))>"},
    {"(let ((a 1) . 2) 3)", "#<error: wrong form: ((a 1) . 2)>"},
    {"(lambda (1) 2)", "#<error: a name wanted: 1>"},
    {"(lambda (a b c d e f g h i j k l m n o p) 1)", "#<error: more than 15 variables in a procedure: p>"},
    {"(define)", "#<error: wrong form: (define)>"},
    {"(define 5 1)", "#<error: wrong form: (define 5 1)>"},
    {"(define (f) (if #t (define x 1) 2))", "#<error: a definition stands in the wrong place: x>"},
    {"(set! (f x) 1)", "#<error: wrong form: (set! (f x) 1)>"},
    {"(else 1)", "#<error: wrong form: (else 1)>"},
    {"(f . 1)", "#<error: wrong form: (f . 1)>"},
    {"(quote)", "#<error: wrong form: (quote)>"},
    {"(try)", "#<error: wrong form: (try)>"},
    {"(cond 5)", "#<error: wrong form: (5)>"},
    {"(list 1 2 3 4 5 6 7 8 9 10 11 12 13 14 15)", "#<error: more than 14 arguments: (list 1 2 3 4 5 6 7 8 9 10 11 12 13 14 15)>"},
    {"(1 2)", "#<error: not a procedure: 1, in (1 2)>"},
    {"(raise 5)", "#<error: an error wanted: 5, in (raise 5)>"},
    {"(apply + 5)", "#<error: a list wanted: 5, in (apply + 5)>"},
    {"(+)", "#<error: wrong number of arguments: #<primitive +>, in (+)>"},
    {"(car 1 2 3 4 5 6)", "#<error: wrong number of arguments: #<primitive car>, in (car 1 2 3 4 5 6)>"},
    {"(make-vector -1 0)", "#<error: a length is 0 to 4294967296: -1, in (make-vector -1 0)>"},
    {"(string->symbol \"\")", "#<error: a name has 1 to 120 bytes, in (string->symbol \"\")>"},
    {"(car (gone))", "#<error: no such variable: gone, in (gone)>"},
};

enum { WRONGS = sizeof wrongs / sizeof wrongs[0] };

static memory_counts counted;
static uint64_t turned;

static void give_up(const char *what, const char *of, const char *printed) {
    fprintf(stderr, "test_lisp: %s: %s: %s\n", what, of, printed == NULL ? "(nothing)" : printed);
    exit(1);
}

/* A file of the folder as a string, which the caller frees. */
static char *read_file(const char *folder, const char *name, const char *end) {
    char path[1024];
    (void)snprintf(path, sizeof path, "%s/%s%s", folder, name, end);
    FILE *from = fopen(path, "rb");
    char *text = calloc(1, 65536);
    if (from == NULL || text == NULL || fread(text, 1, 65535, from) == 0) {
        give_up("cannot be read", path, NULL);
    }
    fclose(from);
    return text;
}

/*
 * What is told of a heap. A program that was to use its heap up many times has to. It gets all words of the heap back at most once by a collection,
 * at most twice by one that was cut short, which may be followed by a full one in the same pause, and at most once by one that has not ended.
 */
static void count(const trial *of, const memory_counts *told) {
    uint64_t turns = told->words / (of->regions * of->words);
    if (turns < of->turns) {
        give_up("it does not take that many times the words of its heap", of->program, NULL);
    }
    if (told->collections + told->cut + 2 < turns) {
        give_up("it takes the words of its heap more often than they are given back", of->program, NULL);
    }
    turned += turns;
    counted.made += told->made;
    counted.full_answers += told->full_answers;
    counted.collections += told->collections;
    counted.whole += told->whole;
    counted.marked += told->marked;
    counted.cut += told->cut;
    counted.full += told->full;
}

/* Runs a text on a heap; each thread has to print the same. */
static void expect(const trial *of, const char *text, const char *wanted, bool done) {
    program only = {.name = of->program, .text = text, .length = strlen(text)};
    team all = {
        .sizes = {of->regions, of->words, of->threads, of->helpers, 2},
        .every = of->every,
        .programs = &only,
        .count = 1,
        .direct = NULL,
    };
    report came;
    run_team(&all, &came);
    if (came.refused != NULL) {
        give_up("the heap is not opened", of->program, came.refused);
    }
    for (size_t i = 0; i < of->threads; i++) {
        if (came.done[i] != done || came.printed[i] == NULL || strcmp(came.printed[i], wanted) != 0) {
            give_up("printed", of->program, came.printed[i]);
        }
    }
    count(of, &came.counts);
    free_report(&came);
}

static void try_programs(const char *folder) {
    for (size_t i = 0; i < TRIALS; i++) {
        char *text = read_file(folder, trials[i].program, ".lisp");
        char *wanted = read_file(folder, trials[i].program, ".expected");
        expect(&trials[i], text, wanted, true);
        free(text);
        free(wanted);
    }
}

/* What is printed where a text ends by an error, which is in its last line. */
static void try_wrong(const wrong *of) {
    static const trial heap = {"wrong text", 1, 1, 24, 256, 20, 0};
    char wanted[512];
    int line = 1;
    for (const char *at = of->text; *at != '\0'; at++) {
        line += *at == '\n';
    }
    (void)snprintf(wanted, sizeof wanted, "form that ends in line %d: %s\nwrong text ended there\n", line, of->printed);
    expect(&heap, of->text, wanted, false);
}

/* Values inside one another, deeper than reader and compiler go. */
static void try_deep(void) {
    static const trial heap = {"deep", 1, 1, 64, 256, 0, 0};
    char text[2048];
    memset(text, '(', sizeof text - 1);
    text[sizeof text - 1] = '\0';
    expect(&heap, text, "form that ends in line 1: #<error: line 1: nested too deep>\ndeep ended there\n", false);
}

/* A heap that does not hold the names, and sizes that are refused. */
static void try_no_room(void) {
    static const trial heap = {"no room", 1, 1, 4, 64, 0, 0};
    expect(&heap, "1", "the heap has no room for the names of the Lisp\n", false);
    team none = {.sizes = {3, 64, 1, 0, 0}, .every = 0, .programs = NULL, .count = 0, .direct = NULL};
    report came;
    run_team(&none, &came);
    if (came.refused == NULL) {
        give_up("a heap of 3 regions", "is opened", NULL);
    }
}

static void tell(void) {
    printf("lisp: %d programs on small heaps, %d wrong texts: %llu objects, %llu times the words of their heaps, %llu allocations without room; "
           "%llu collections (%llu cycles ended whole, %llu with nothing to evacuate, %llu cut short; %llu full collections)\n",
           (int)TRIALS, (int)WRONGS, (unsigned long long)counted.made, (unsigned long long)turned, (unsigned long long)counted.full_answers,
           (unsigned long long)counted.collections, (unsigned long long)counted.whole, (unsigned long long)counted.marked,
           (unsigned long long)counted.cut, (unsigned long long)counted.full);
}

int main(int argc, char **argv) {
    if (argc != 2) {
        fputs("usage: test_lisp FOLDER\n", stderr);
        return 2;
    }
    try_programs(argv[1]);
    for (size_t i = 0; i < WRONGS; i++) {
        try_wrong(&wrongs[i]);
    }
    try_deep();
    try_no_room();
    tell();
    return 0;
}

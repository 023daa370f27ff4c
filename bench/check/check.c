/* Reads clauses in the form of DIMACS and the steps of a refutation, checks it along its hints, and says what came of it and how many
   microseconds of processor time the reading of the steps took, and then the check: flat arrays, a stamp for each variable, a flag for
   each number. */
#include <stdbool.h>
#include <stdint.h>
#include <stdio.h>
#include <stdlib.h>
#include <string.h>
#include <time.h>

typedef struct { int64_t *data; size_t count, room; } list;

static void push(list *l, int64_t x)
{
    if (l->count == l->room) {
        l->room = l->room ? 2 * l->room : 1024;
        l->data = realloc(l->data, l->room * sizeof *l->data);
        if (!l->data) exit(9);
    }
    l->data[l->count++] = x;
}

/* clauses, and the clause, the hints and the deletes of each step: all end at 'ends' */
typedef struct { list items, ends; } lists;

static void end(lists *l) { push(&l->ends, (int64_t)l->items.count); }
static int64_t begin(const lists *l, int64_t i) { return i ? l->ends.data[i - 1] : 0; }

static lists clauses, derived, hints, deletes;
static int64_t *marks, step;
static bool *alive;

static char *text_of(const char *name)
{
    FILE *file = fopen(name, "rb");
    if (!file) exit(9);
    fseek(file, 0, SEEK_END);
    size_t length = (size_t)ftell(file);
    rewind(file);
    char *text = malloc(length + 1);
    if (!text || fread(text, 1, length, file) != length) exit(9);
    fclose(file);
    text[length] = 0;
    return text;
}

static int64_t number(char **at)
{
    char *p = *at;
    while (*p == ' ' || *p == '\n') p++;
    bool negative = *p == '-';
    p += negative;
    int64_t value = 0;
    while (*p >= '0' && *p <= '9') value = value * 10 + (*p++ - '0');
    *at = p;
    return negative ? -value : value;
}

static void read_list(lists *l, char **at)
{
    for (int64_t x = number(at); x != 0; x = number(at)) push(&l->items, x);
    end(l);
}

/* The mark of a variable is the number of the step in which a literal of it became false, with the literal's sign. */
static bool is_false(int64_t literal) { return marks[llabs(literal)] == (literal > 0 ? step : -step); }
static void make_false(int64_t literal) { marks[llabs(literal)] = literal > 0 ? step : -step; }

static bool is_usable(int64_t clause, int64_t given) { return clause >= 1 && clause < given + step && alive[clause]; }

/* Follows the hints of a step whose literals are false. */
static bool ends_in_conflict(int64_t given)
{
    int64_t last = hints.ends.data[step - 1];
    for (int64_t hint = begin(&hints, step - 1); hint < last; hint++) {
        int64_t clause = hints.items.data[hint], left = 0;
        if (!is_usable(clause, given)) return false;
        const lists *l = clause <= given ? &clauses : &derived;
        int64_t place = clause <= given ? clause - 1 : clause - 1 - given;
        for (int64_t i = begin(l, place); i < l->ends.data[place]; i++) {
            int64_t literal = l->items.data[i];
            if (is_false(literal) || literal == left) continue;
            if (left != 0) return false;
            left = literal;
        }
        if (left == 0) return hint + 1 == last;
        if (is_false(-left)) return false;
        make_false(-left);
    }
    return false;
}

static bool refutes(int64_t given, int64_t steps, int64_t variables)
{
    for (step = 1; step <= steps; step++) {
        int64_t from = begin(&derived, step - 1), to = derived.ends.data[step - 1];
        for (int64_t i = from; i < to; i++) {
            if (llabs(derived.items.data[i]) > variables) return false;
            make_false(derived.items.data[i]);
        }
        if (!ends_in_conflict(given)) return false;
        if (step == steps) return from == to;
        for (int64_t i = begin(&deletes, step - 1); i < deletes.ends.data[step - 1]; i++) {
            if (!is_usable(deletes.items.data[i], given)) return false;
            alive[deletes.items.data[i]] = false;
        }
    }
    return false;
}

int main(int count, char **words)
{
    if (count != 3) return 9;
    char *at = text_of(words[1]) + strlen("p cnf");
    int64_t variables = number(&at), given = number(&at), steps = 0;
    for (int64_t i = 0; i < given; i++) read_list(&clauses, &at);
    clock_t start = clock();
    for (at = text_of(words[2]); *at; at++) {
        at += strlen("step");
        read_list(&derived, &at);
        read_list(&hints, &at);
        read_list(&deletes, &at);
        steps++;
    }
    clock_t middle = clock();
    marks = calloc((size_t)variables + 1, sizeof *marks);
    alive = malloc((size_t)(given + steps + 1));
    if (!marks || !alive) return 9;
    memset(alive, 1, (size_t)(given + steps + 1));
    bool ok = refutes(given, steps, variables);
    clock_t last = clock();
    long reading = (long)((middle - start) * 1000000 / CLOCKS_PER_SEC), check = (long)((last - middle) * 1000000 / CLOCKS_PER_SEC);
    printf("%s %ld %ld\n", ok ? "refuted" : "not refuted", reading, check);
    return !ok;
}

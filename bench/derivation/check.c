/* The check of two derivations as plain C does it: flat arrays, a stamp for each variable, a flag for each number. */
#include <stdbool.h>
#include <stdint.h>
#include <stdio.h>
#include <stdlib.h>
#include <time.h>

enum { CHAIN = 1000, ROUNDS = 500, LINKS = 250000 };

typedef struct { int32_t *data; uint32_t count, room; } list;

static void push(list *l, int32_t x) {
    if (l->count == l->room) {
        l->room = l->room ? 2 * l->room : 16;
        l->data = realloc(l->data, l->room * sizeof *l->data);
        if (!l->data) exit(1);
    }
    l->data[l->count++] = x;
}

/* clauses, and the clause, hints and deletes of each step: all end at 'ends' */
typedef struct { list items, ends; } lists;

static void end(lists *l) { push(&l->ends, (int32_t)l->items.count); }
static uint32_t begin(const lists *l, uint32_t i) { return i ? (uint32_t)l->ends.data[i - 1] : 0; }

typedef struct { uint32_t variables; lists clauses, derived, hints, deletes; } derivation;
typedef struct { uint64_t step; bool positive; } mark;

static bool is_false(const mark *marks, uint64_t step, int32_t literal) {
    mark m = marks[abs(literal) - 1];
    return m.step == step && m.positive == (literal > 0);
}

static void make_false(mark *marks, uint64_t step, int32_t literal) {
    marks[abs(literal) - 1] = (mark){step, literal > 0};
}

static bool refutes(const derivation *d, mark *marks, bool *alive) {
    uint32_t given = d->clauses.ends.count, steps = d->derived.ends.count;
    for (uint32_t i = 0; i < d->variables; i++) marks[i] = (mark){0, false};
    for (uint32_t i = 0; i < given + steps; i++) alive[i] = true;
    for (uint32_t s = 0; s < steps; s++) {
        uint64_t step = (uint64_t)s + 1;
        uint32_t from = begin(&d->derived, s), to = (uint32_t)d->derived.ends.data[s];
        for (uint32_t i = from; i < to; i++) {
            int32_t literal = d->derived.items.data[i];
            if (literal == 0 || (uint32_t)abs(literal) > d->variables) return false;
            if (marks[abs(literal) - 1].step == step) return false;
            make_false(marks, step, literal);
        }
        uint32_t hint = begin(&d->hints, s), hint_end = (uint32_t)d->hints.ends.data[s];
        bool conflict = false;
        for (; hint < hint_end; hint++) {
            uint32_t number = (uint32_t)d->hints.items.data[hint];
            if (number == 0 || number > given + s || !alive[number - 1]) return false;
            bool is_given = number <= given;
            const lists *l = is_given ? &d->clauses : &d->derived;
            uint32_t place = is_given ? number - 1 : number - 1 - given;
            int32_t left = 0;
            for (uint32_t i = begin(l, place); i < (uint32_t)l->ends.data[place]; i++) {
                int32_t literal = l->items.data[i];
                if (is_false(marks, step, literal)) continue;
                if (left != 0 && left != literal) return false;
                left = literal;
            }
            if (left == 0) { conflict = hint + 1 == hint_end; break; }
            if (is_false(marks, step, -left)) return false;
            make_false(marks, step, -left);
        }
        if (!conflict) return false;
        for (uint32_t i = begin(&d->deletes, s); i < (uint32_t)d->deletes.ends.data[s]; i++) {
            uint32_t number = (uint32_t)d->deletes.items.data[i];
            if (number == 0 || number > given + s || !alive[number - 1]) return false;
            alive[number - 1] = false;
        }
        if (s + 1 == steps) return from == to;
    }
    return false;
}

static void chain(derivation *d, int32_t variables) {
    d->variables = (uint32_t)variables;
    push(&d->clauses.items, 1);
    end(&d->clauses);
    for (int32_t v = 1; v < variables; v++) {
        push(&d->clauses.items, -v);
        push(&d->clauses.items, v + 1);
        end(&d->clauses);
    }
    push(&d->clauses.items, -variables);
    end(&d->clauses);
}

static void end_step(derivation *d) { end(&d->derived); end(&d->hints); end(&d->deletes); }

static void long_steps(derivation *d) {
    for (int round = 0; round < ROUNDS; round++) {
        push(&d->derived.items, CHAIN);
        for (int32_t number = 1; number <= CHAIN; number++) push(&d->hints.items, number);
        end_step(d);
    }
    push(&d->hints.items, CHAIN + 2);
    push(&d->hints.items, CHAIN + 1);
    end_step(d);
}

static void short_steps(derivation *d) {
    int32_t clauses = LINKS + 2, previous = 2;
    for (int32_t link = 1; link < LINKS; link++) {
        push(&d->derived.items, -1);
        push(&d->derived.items, link + 2);
        push(&d->hints.items, previous);
        push(&d->hints.items, link + 2);
        push(&d->deletes.items, previous);
        end_step(d);
        previous = clauses + link;
    }
    push(&d->hints.items, 1);
    push(&d->hints.items, previous);
    push(&d->hints.items, clauses);
    end_step(d);
}

static void report(const char *name, const derivation *d) {
    size_t numbers = (size_t)d->clauses.ends.count + d->derived.ends.count;
    for (int round = 0; round < 5; round++) {
        mark *marks = calloc(d->variables, sizeof *marks);
        bool *alive = calloc(numbers, sizeof *alive);
        if (!marks || !alive) exit(1);
        struct timespec a, b;
        clock_gettime(CLOCK_MONOTONIC, &a);
        bool ok = refutes(d, marks, alive);
        clock_gettime(CLOCK_MONOTONIC, &b);
        long us = (b.tv_sec - a.tv_sec) * 1000000L + (b.tv_nsec - a.tv_nsec) / 1000;
        printf("%s %s %ld\n", name, ok ? "true" : "false", us);
        free(marks);
        free(alive);
    }
}

int main(void) {
    static derivation first, second;
    chain(&first, CHAIN);
    long_steps(&first);
    report("long", &first);
    chain(&second, LINKS + 1);
    short_steps(&second);
    report("short", &second);
    return 0;
}

/* Measures how much stack each function of the interface needs: the call is made on a
   thread whose stack was painted before, and what is no longer painted was used. What a
   thread needs for itself is measured by an empty call and left out. Each function that
   takes a file is called on every file, and the most that it used is printed. */
#include <retention.h>

#include <pthread.h>
#include <stdio.h>
#include <stdlib.h>
#include <string.h>

#define COUNT(array) (sizeof(array) / sizeof((array)[0]))

enum {
    STACK = 1 << 20,
    PAINT = 0x5A,
    MOST_FACTS = 255,
    MOST_RULES = 512,
    MOST_OWN_ITEMS = 24,
    PAIRS = 16,
    UNREAD = 5,
    LEAST = 9,
    /* no accepted file with so few unread facts is longer */
    MOST_BYTES = 2 + 2 * UNREAD + MOST_RULES * (2 + 2 * MOST_OWN_ITEMS) + 3
};

static uint8_t file[MOST_BYTES], order[3 * MOST_RULES], found[3 * MOST_RULES];
static uint8_t other[3 * MOST_RULES];
static uint8_t fact_marks[MOST_FACTS], rule_marks[MOST_RULES], steps[4 * MOST_FACTS];
static uint8_t set[MOST_FACTS], text[8192], loaded[5 + 6 * MOST_RULES];
static size_t file_len, order_len, proof_len;
static uint32_t asked;
static int cyclic, unstable;
static volatile uint32_t reply;

static uint8_t *begin_file(void)
{
    file[0] = 0x10;
    file[1] = MOST_FACTS;
    order_len = 0;
    cyclic = 0;
    unstable = 0;
    return file + 2;
}

static void end_file(uint8_t *at, int rules)
{
    *at++ = 0x1F;
    *at++ = (uint8_t)(rules >> 8);
    *at++ = (uint8_t)rules;
    file_len = (size_t)(at - file);
}

/* A rule with one premise or constraint, as often as it may stand there. */
static uint8_t *add_rule(uint8_t *at, int conclusion, uint8_t kind, int fact)
{
    *at++ = 0x01;
    *at++ = (uint8_t)conclusion;
    for (int item = 0; item < MOST_OWN_ITEMS; item++) {
        *at++ = kind;
        *at++ = (uint8_t)fact;
    }
    return at;
}

/* The next rule of the order. */
static void name_rule(int rule)
{
    order[order_len++] = 0x05;
    order[order_len++] = (uint8_t)(rule >> 8);
    order[order_len++] = (uint8_t)rule;
}

/* Facts that exclude each other in pairs, and a chain from each of them: all constraint
   facts are guessed, one within another. No accepted file has more rules or items. */
static void make_pairs(void)
{
    uint8_t *at = begin_file();
    for (int rule = 0; rule < MOST_RULES; rule++) {
        if (rule < PAIRS) {
            at = add_rule(at, rule, 0x03, rule ^ 1);
            name_rule(rule);
        } else {
            at = add_rule(at, PAIRS + rule % (MOST_FACTS - PAIRS), 0x02, rule % PAIRS);
        }
    }
    end_file(at, MOST_RULES);
    asked = 0;
    cyclic = 1;
}

/* Every rule is an exception rule, from here on: the longest order and the most
   constraint items. */
static void add_exceptions(uint8_t *at)
{
    for (int rule = 0; rule < MOST_RULES; rule++) {
        at = add_rule(at, rule % (MOST_FACTS - PAIRS), 0x03,
                      MOST_FACTS - PAIRS + rule % PAIRS);
        name_rule(rule);
    }
    end_file(at, MOST_RULES);
    asked = 0;
}

static void make_exceptions(void)
{
    add_exceptions(begin_file());
}

/* The same, with every third constraint fact unread from the second on. */
static void make_withheld(void)
{
    uint8_t *at = begin_file();
    for (int place = 0; place < UNREAD; place++) {
        *at++ = 0x07;
        *at++ = (uint8_t)(MOST_FACTS - PAIRS + 1 + 3 * place);
    }
    add_exceptions(at);
}

/* Every rule wants its own conclusion out, and is set aside under every order. */
static void make_set_aside(void)
{
    uint8_t *at = begin_file();
    for (int rule = 0; rule < MOST_RULES; rule++) {
        at = add_rule(at, rule % MOST_FACTS, 0x03, rule % MOST_FACTS);
        name_rule(rule);
    }
    end_file(at, MOST_RULES);
}

/* Each fact from as many before it as a rule may name, the nearest as the first premise
   and as the last: the grounds of the last fact go as deep as there are facts. */
static void make_stairs(void)
{
    uint8_t *at = begin_file();
    for (int fact = 0; fact < MOST_FACTS; fact++) {
        *at++ = 0x01;
        *at++ = (uint8_t)fact;
        for (int below = 1; below <= fact && below < MOST_OWN_ITEMS; below++) {
            *at++ = 0x02;
            *at++ = (uint8_t)(fact - below);
        }
        if (fact > 0) {
            *at++ = 0x02;
            *at++ = (uint8_t)(fact - 1);
        }
    }
    end_file(at, MOST_FACTS);
    asked = MOST_FACTS - 1;
}

/* Each fact has those after it as items of this kind, the nearest as the first and, if
   none leads back, as the last. A walk along them goes as deep as there are facts. */
static void make_walk(uint8_t kind, int leads_back, int ring)
{
    int facts = ring ? MOST_FACTS : MOST_FACTS - 1;
    uint8_t *at = begin_file();
    for (int rule = 0; rule < MOST_RULES; rule++) {
        int fact = rule % facts;
        *at++ = 0x01;
        *at++ = (uint8_t)fact;
        for (int item = 1; item <= MOST_OWN_ITEMS; item++) {
            int last = item == MOST_OWN_ITEMS;
            int other = fact + (last ? (leads_back ? -1 : 1) : item);
            if (ring)
                other = (other + MOST_FACTS) % MOST_FACTS;
            else if (other >= MOST_FACTS)
                other = MOST_FACTS - 1;
            *at++ = kind;
            *at++ = (uint8_t)other;
        }
    }
    end_file(at, MOST_RULES);
}

/* As many ranks as facts. */
static void make_ladder(void)
{
    make_walk(0x03, 0, 0);
}

/* All facts wait for each other: in a ring, and in cycles one around another. */
static void make_ring(void)
{
    make_walk(0x02, 0, 1);
}

static void make_nested(void)
{
    make_walk(0x02, 1, 1);
}

/* The same, by constraints. */
static void make_refused(void)
{
    make_walk(0x03, 1, 1);
    cyclic = 1;
}

static uint8_t *add_items(uint8_t *at, int conclusion, uint8_t kind, int fact, int premise)
{
    *at++ = 0x01;
    *at++ = (uint8_t)conclusion;
    *at++ = kind;
    *at++ = (uint8_t)fact;
    if (premise >= 0) {
        *at++ = 0x02;
        *at++ = (uint8_t)premise;
    }
    return at;
}

/* Of the first so many constraint facts at least so many are out. */
static int out_of(int first, int least)
{
    return 2 * PAIRS + (first - 1) * LEAST + least - 1;
}

/* All constraint facts are derived where enough of them are out. There is no stable set, and
   no few guesses tell it: the search looks through all the others in blocks. */
static void make_threshold(void)
{
    uint8_t *at = begin_file();
    int rules = 0;
    for (int first = 1; first <= PAIRS; first++) {
        int out = PAIRS + first - 1;
        at = add_items(at, out, 0x03, first - 1, -1);
        at = add_items(at, first - 1, 0x02, out_of(PAIRS, LEAST), -1);
        rules += 2;
        for (int least = 1; least <= LEAST && least <= first; least++) {
            at = add_items(at, out_of(first, least), 0x02, out,
                           least > 1 ? out_of(first - 1, least - 1) : -1);
            rules++;
            if (least < first) {
                at = add_items(at, out_of(first, least), 0x02, out_of(first - 1, least), -1);
                rules++;
            }
        }
    }
    end_file(at, rules);
    unstable = 1;
}

static void *nothing(void *unused)
{
    reply = 0;
    return unused;
}

static void *accept(void *unused)
{
    reply = retention_accept(file, file_len).refusal;
    return unused;
}

static void *run(void *unused)
{
    retention_counts counts = retention_run(file, file_len, order, order_len, fact_marks,
                                            sizeof fact_marks, rule_marks, sizeof rule_marks,
                                            steps, sizeof steps);
    proof_len = 4 * (size_t)counts.steps;
    for (int fact = 0; fact < MOST_FACTS; fact++)
        set[fact] = fact_marks[fact] == 1;
    reply = counts.refusal;
    return unused;
}

static void *judge(void *unused)
{
    reply = retention_judge(file, file_len, order, 0, set, sizeof set).refusal;
    return unused;
}

static void *check(void *unused)
{
    reply = retention_check(file, file_len, set, sizeof set, steps[proof_len - 3], steps,
                            proof_len).refusal;
    return unused;
}

/* Where no set is stable it refuses, and with its own number. */
static void *search(void *unused)
{
    retention_counts counts = retention_search(file, file_len, fact_marks, sizeof fact_marks,
                                               rule_marks, sizeof rule_marks, steps,
                                               sizeof steps, found, sizeof found);
    reply = unstable ? counts.refusal != 41 : counts.refusal;
    return unused;
}

static void *panel(void *unused)
{
    reply = retention_panel(file, file_len, text, sizeof text) == 0;
    return unused;
}

static void *grounds(void *unused)
{
    retention_count kept = retention_grounds(file, file_len, order, order_len, asked,
                                             fact_marks, sizeof fact_marks, rule_marks,
                                             sizeof rule_marks, steps, sizeof steps);
    reply = kept.refusal;
    return unused;
}

/* Where a cycle goes through a constraint it refuses, and with its own number. */
static void *layered(void *unused)
{
    retention_count named = retention_layered(file, file_len, found, sizeof found);
    reply = cyclic ? named.refusal != 52 : named.refusal;
    return unused;
}

/* The second order is the first the other way round. */
static void *better(void *unused)
{
    for (size_t at = 0; at < order_len; at += 3)
        memcpy(other + at, order + order_len - 3 - at, 3);
    reply = retention_better(file, file_len, order, order_len, other, order_len).refusal;
    return unused;
}

/* It takes no file: as many facts and rules as may be. */
static void *load(void *unused)
{
    reply = retention_load(0, MOST_FACTS, MOST_RULES, loaded, sizeof loaded).refusal;
    return unused;
}

static size_t used(void *(*call)(void *))
{
    pthread_t thread;
    pthread_attr_t attributes;
    uint8_t *stack = aligned_alloc(4096, STACK);
    size_t untouched = 0;
    if (stack == NULL)
        exit(EXIT_FAILURE);
    memset(stack, PAINT, STACK);
    if (pthread_attr_init(&attributes) != 0 || pthread_attr_setstack(&attributes, stack, STACK) != 0
        || pthread_create(&thread, &attributes, call, NULL) != 0
        || pthread_join(thread, NULL) != 0)
        exit(EXIT_FAILURE);
    while (untouched < STACK && stack[untouched] == PAINT)
        untouched++;
    free(stack);
    return STACK - untouched;
}

typedef struct {
    const char *name;
    void *(*call)(void *);
    size_t needed;
} function;

/* Calls the function on the file that was made, and keeps the most that it used. */
static void measure(function *measured, size_t own)
{
    size_t more = used(measured->call) - own;
    if (reply != 0) {
        printf("FAIL %s refused with %u\n", measured->name, (unsigned)reply);
        exit(EXIT_FAILURE);
    }
    if (measured->needed < more)
        measured->needed = more;
}

static void show(const function *measured)
{
    printf("stack %-18s %4zu KB\n", measured->name, (measured->needed + 1023) / 1024);
}

int main(void)
{
    static void (*const files[])(void) = {make_pairs, make_exceptions, make_withheld,
                                          make_stairs};
    /* These have too many constraint facts for the search, or nothing to derive. */
    static void (*const layered_files[])(void) = {make_ladder, make_ring, make_nested,
                                                  make_refused};
    /* The judge and the check take what the run left. */
    function functions[] = {{"retention_accept", accept, 0}, {"retention_run", run, 0},
                            {"retention_judge", judge, 0},   {"retention_check", check, 0},
                            {"retention_search", search, 0}, {"retention_panel", panel, 0},
                            {"retention_grounds", grounds, 0}};
    function *searches = &functions[4];
    function layers = {"retention_layered", layered, 0};
    function orders = {"retention_better", better, 0};
    function loads = {"retention_load", load, 0};
    size_t own = used(nothing);
    for (size_t f = 0; f < COUNT(files); f++) {
        files[f]();
        for (size_t n = 0; n < COUNT(functions); n++)
            measure(&functions[n], own);
        measure(&layers, own);
        measure(&orders, own);
    }
    make_threshold();
    measure(searches, own);
    make_set_aside();
    measure(&orders, own);
    for (size_t f = 0; f < COUNT(layered_files); f++) {
        layered_files[f]();
        measure(&layers, own);
    }
    measure(&loads, own);
    for (size_t n = 0; n < COUNT(functions); n++)
        show(&functions[n]);
    show(&layers);
    show(&orders);
    show(&loads);
    return EXIT_SUCCESS;
}

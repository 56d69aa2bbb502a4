/* Runs the specification's examples through the C interface. */
#include <retention.h>

#include <stdio.h>
#include <string.h>

#define COUNT(array) (sizeof(array) / sizeof((array)[0]))
#define BYTES(...) (const uint8_t[]){__VA_ARGS__}, COUNT(((const uint8_t[]){__VA_ARGS__}))
/* With length 0 a pointer is not read, so any address that is not null will do. */
#define NOTHING (const uint8_t[]){0}, 0

enum {
    UNTOUCHED = 0xA5,
    MOST_FACTS = 255,
    MOST_RULES = 512,
    /* of a test load */
    MOST_LOADED = 5 + 6 * MOST_RULES
};

static int failures;

static void expect(int holds, const char *what)
{
    printf("%s %s\n", holds ? "PASS" : "FAIL", what);
    failures += !holds;
}

/* The buffers of a run or a search, of the largest size. */
typedef struct {
    uint8_t fact_marks[MOST_FACTS];
    uint8_t rule_marks[MOST_RULES];
    uint8_t steps[4 * MOST_FACTS];
    uint8_t order[3 * MOST_RULES];
    retention_counts counts;
} outcome;

static outcome untouched(void)
{
    outcome result;
    memset(&result, UNTOUCHED, sizeof result);
    return result;
}

static outcome run(const uint8_t *file, size_t file_len, const uint8_t *order, size_t order_len)
{
    outcome result = untouched();
    result.counts = retention_run(file, file_len, order, order_len,
                                  result.fact_marks, sizeof result.fact_marks,
                                  result.rule_marks, sizeof result.rule_marks,
                                  result.steps, sizeof result.steps);
    return result;
}

static outcome search(const uint8_t *file, size_t file_len)
{
    outcome result = untouched();
    result.counts = retention_search(file, file_len,
                                     result.fact_marks, sizeof result.fact_marks,
                                     result.rule_marks, sizeof result.rule_marks,
                                     result.steps, sizeof result.steps,
                                     result.order, sizeof result.order);
    return result;
}

/* The counts hold the refusal and, for the steps, the count of those kept. */
static outcome grounds(const uint8_t *file, size_t file_len, const uint8_t *order,
                       size_t order_len, uint32_t fact)
{
    outcome result = untouched();
    retention_count kept = retention_grounds(file, file_len, order, order_len, fact,
                                             result.fact_marks, sizeof result.fact_marks,
                                             result.rule_marks, sizeof result.rule_marks,
                                             result.steps, sizeof result.steps);
    result.counts = (retention_counts){kept.refusal, 0, kept.count};
    return result;
}

/* The order by ranks, in a buffer of the largest size of which so many bytes are lent. */
typedef struct {
    uint8_t order[3 * MOST_RULES];
    retention_count reply;
} layers;

static layers layered(const uint8_t *file, size_t file_len, size_t order_len)
{
    layers result;
    memset(&result, UNTOUCHED, sizeof result);
    result.reply = retention_layered(file, file_len, result.order, order_len);
    return result;
}

/* A test load, in a buffer with room for one rule too many, of which so many bytes are lent. */
typedef struct {
    uint8_t file[MOST_LOADED + 6];
    retention_count reply;
} loads;

static loads load(uint32_t start, uint32_t facts, uint32_t rules, size_t out_len)
{
    loads result;
    memset(&result, UNTOUCHED, sizeof result);
    result.reply = retention_load(start, facts, rules, result.file, out_len);
    return result;
}

/* The buffer holds the bytes, and past them what it held before the call. */
static int holds(const uint8_t *buffer, size_t buffer_len, const uint8_t *bytes, size_t len)
{
    if (len > buffer_len || memcmp(buffer, bytes, len) != 0)
        return 0;
    for (size_t place = len; place < buffer_len; place++)
        if (buffer[place] != UNTOUCHED)
            return 0;
    return 1;
}

#define HOLDS(buffer, ...) holds(buffer, sizeof(buffer), __VA_ARGS__)

static int refused(const outcome *result, uint32_t refusal)
{
    const retention_counts *counts = &result->counts;
    return counts->refusal == refusal && counts->stages == 0 && counts->steps == 0
        && HOLDS(result->fact_marks, NOTHING) && HOLDS(result->rule_marks, NOTHING)
        && HOLDS(result->steps, NOTHING) && HOLDS(result->order, NOTHING);
}

static int counted(const outcome *result, uint32_t stages, uint32_t steps)
{
    const retention_counts *counts = &result->counts;
    return counts->refusal == 0 && counts->stages == stages && counts->steps == steps;
}

static int unordered(const layers *result, uint32_t refusal)
{
    return result->reply.refusal == refusal && result->reply.count == 0
        && HOLDS(result->order, NOTHING);
}

static int ordered(const layers *result, const uint8_t *order, size_t len)
{
    return result->reply.refusal == 0 && 3 * (size_t)result->reply.count == len
        && HOLDS(result->order, order, len);
}

static int chosen(retention_choice reply, uint32_t which)
{
    return reply.refusal == 0 && reply.which == which;
}

static int unchosen(retention_choice reply, uint32_t refusal)
{
    return reply.refusal == refusal && reply.which == 0;
}

static int unloaded(const loads *result, uint32_t refusal)
{
    return result->reply.refusal == refusal && result->reply.count == 0
        && HOLDS(result->file, NOTHING);
}

static int loaded(const loads *result, const uint8_t *file, size_t len)
{
    return result->reply.refusal == 0 && result->reply.count == len
        && HOLDS(result->file, file, len);
}

/* 4 facts; 0<; 1<0,!2; 2<0,!1; 3<2 */
static const uint8_t A[] = {0x10, 4, 1, 0, 1, 1, 2, 0, 3, 2, 1, 2,
                            2,    0, 3, 1, 1, 3, 2, 2, 0x1F, 0, 4};
/* 1 fact; 0<!0 */
static const uint8_t B[] = {0x10, 1, 1, 0, 3, 0, 0x1F, 0, 1};
/* 3 facts; 0<!1; 1<!2 */
static const uint8_t C[] = {0x10, 3, 1, 0, 3, 1, 1, 1, 3, 2, 0x1F, 0, 2};
/* 2 facts; 1<0; 0<!1 */
static const uint8_t D[] = {0x10, 2, 1, 1, 2, 0, 1, 0, 3, 1, 0x1F, 0, 2};
/* nothing */
static const uint8_t E[] = {0x10, 0, 0x1F, 0, 0};
/* 1 fact; 0<0 */
static const uint8_t F[] = {0x10, 1, 1, 0, 2, 0, 0x1F, 0, 1};

static void example_a(void)
{
    outcome first = run(A, sizeof A, BYTES(5, 0, 1, 5, 0, 2));
    expect(counted(&first, 1, 2) && HOLDS(first.fact_marks, BYTES(1, 1, 2, 0))
               && HOLDS(first.rule_marks, BYTES(0, 1, 3, 0))
               && HOLDS(first.steps, BYTES(6, 0, 0, 0, 6, 1, 0, 1)),
           "A: order 1 2");
    outcome second = run(A, sizeof A, BYTES(5, 0, 2, 5, 0, 1));
    expect(counted(&second, 1, 3) && HOLDS(second.fact_marks, BYTES(1, 2, 1, 1))
               && HOLDS(second.rule_marks, BYTES(0, 3, 1, 0))
               && HOLDS(second.steps, BYTES(6, 0, 0, 0, 6, 2, 0, 2, 6, 3, 0, 3)),
           "A2: order 2 1");
    outcome found = search(A, sizeof A);
    expect(counted(&found, 1, 2) && HOLDS(found.fact_marks, BYTES(1, 1, 2, 0))
               && HOLDS(found.rule_marks, BYTES(0, 1, 3, 0))
               && HOLDS(found.steps, BYTES(6, 0, 0, 0, 6, 1, 0, 1))
               && HOLDS(found.order, BYTES(5, 0, 1, 5, 0, 2)),
           "A3: the search takes {0,1}");
    retention_verdict stable = retention_judge(A, sizeof A, NOTHING, BYTES(1, 1, 0, 0));
    expect(stable.refusal == 0 && stable.verdict == 1, "A3: {0,1} is stable");
    retention_verdict proof =
        retention_check(A, sizeof A, BYTES(1, 1, 0, 0), 1, BYTES(6, 0, 0, 0, 6, 1, 0, 1));
    expect(proof.refusal == 0 && proof.verdict == 1, "A3: the steps prove 1");
    proof = retention_check(A, sizeof A, BYTES(1, 1, 1, 0), 1, BYTES(6, 0, 0, 0, 6, 1, 0, 1));
    expect(proof.refusal == 0 && proof.verdict == 0, "A: a set with 2 does not admit the proof");
    proof = retention_check(A, sizeof A, BYTES(1, 1, 0, 0), 4, NOTHING);
    expect(proof.refusal == 24 && proof.verdict == 0, "A: fact 4 cannot be asked for");
}

static void orders_for_a(void)
{
    outcome result = run(A, sizeof A, BYTES(5, 0, 0));
    expect(refused(&result, 12), "order 0 for A: 12");
    result = run(A, sizeof A, BYTES(5, 0, 1, 5, 0, 1));
    expect(refused(&result, 13), "order 1 1 for A: 13");
    result = run(A, sizeof A, BYTES(5, 0, 1));
    expect(refused(&result, 14), "order 1 for A: 14");
}

static void example_b(void)
{
    outcome end = run(B, sizeof B, BYTES(5, 0, 0));
    expect(counted(&end, 0, 0) && HOLDS(end.fact_marks, BYTES(0))
               && HOLDS(end.rule_marks, BYTES(2)) && HOLDS(end.steps, NOTHING),
           "B: nothing derived, rule 0 set aside");
    outcome found = search(B, sizeof B);
    expect(refused(&found, 41), "B: search 41");
}

static void example_c(void)
{
    outcome first = run(C, sizeof C, BYTES(5, 0, 0, 5, 0, 1));
    expect(counted(&first, 1, 1) && HOLDS(first.fact_marks, BYTES(1, 2, 0))
               && HOLDS(first.rule_marks, BYTES(1, 2)) && HOLDS(first.steps, BYTES(6, 0, 0, 0)),
           "C: order 0 1");
    outcome second = run(C, sizeof C, BYTES(5, 0, 1, 5, 0, 0));
    expect(counted(&second, 1, 1) && HOLDS(second.fact_marks, BYTES(0, 1, 2))
               && HOLDS(second.rule_marks, BYTES(3, 1)) && HOLDS(second.steps, BYTES(6, 1, 0, 1)),
           "C2: order 1 0");
    outcome found = search(C, sizeof C);
    expect(counted(&found, 1, 1) && HOLDS(found.fact_marks, BYTES(0, 1, 2))
               && HOLDS(found.order, BYTES(5, 0, 1, 5, 0, 0)),
           "C3: search order 1 0");
}

static void examples_d_e_f(void)
{
    outcome end = run(D, sizeof D, BYTES(5, 0, 1));
    expect(counted(&end, 0, 0) && HOLDS(end.rule_marks, BYTES(0, 2)), "D: rule 1 set aside");
    outcome found = search(D, sizeof D);
    expect(refused(&found, 41), "D: search 41");
    found = search(E, sizeof E);
    expect(counted(&found, 0, 0) && HOLDS(found.fact_marks, NOTHING)
               && HOLDS(found.rule_marks, NOTHING) && HOLDS(found.steps, NOTHING)
               && HOLDS(found.order, NOTHING),
           "E: the empty set, an empty order");
    retention_verdict whole = retention_judge(F, sizeof F, NOTHING, BYTES(1));
    expect(whole.refusal == 0 && whole.verdict == 0, "F: {0} is not stable");
    retention_verdict empty = retention_judge(F, sizeof F, NOTHING, BYTES(0));
    expect(empty.refusal == 0 && empty.verdict == 1, "F: the empty set is stable");
}

static void expect_refusal(const uint8_t *file, size_t len, uint32_t refusal, const char *what)
{
    retention_file found = retention_accept(file, len);
    expect(found.refusal == refusal && found.facts == 0 && found.rules == 0
               && found.exceptions == 0 && found.constraints == 0 && found.step_bytes == 0,
           what);
}

/* Ends the file after its rules, and gives its length. */
static size_t end_file(uint8_t *file, size_t len, size_t rules)
{
    file[len++] = 0x1F;
    file[len++] = (uint8_t)(rules >> 8);
    file[len++] = (uint8_t)rules;
    return len;
}

/* 512 rules with this many constraint facts; fact 20 is the conclusion of all. */
static size_t constrained(uint8_t *file, size_t constraint_facts)
{
    size_t len = 0;
    file[len++] = 0x10;
    file[len++] = 21;
    for (size_t rule = 0; rule < MOST_RULES; rule++) {
        file[len++] = 1;
        file[len++] = 20;
        file[len++] = 3;
        file[len++] = (uint8_t)(rule % constraint_facts);
    }
    return end_file(file, len, MOST_RULES);
}

static void files(void)
{
    static uint8_t large[32768];
    expect_refusal(NOTHING, 2, "empty file: 2");
    expect_refusal(BYTES(0x10, 1), 3, "10 01: 3");
    expect_refusal(BYTES(0x10, 1, 5), 4, "10 01 05: 4");
    expect_refusal(BYTES(0x10, 1, 1), 5, "10 01 01: 5");
    expect_refusal(BYTES(0x10, 1, 1, 1), 6, "10 01 01 01: 6");
    expect_refusal(BYTES(0x10, 1, 2, 0), 7, "10 01 02 00: 7");
    expect_refusal(BYTES(0x10, 0, 0x1F, 0, 1), 9, "10 00 1F 00 01: 9");
    expect_refusal(BYTES(0x10, 0, 0x1F, 0, 0, 0), 10, "E and one more byte: 10");
    expect_refusal(large, sizeof large, 1, "32,768 bytes: 1");

    size_t len = 0;
    large[len++] = 0x10;
    large[len++] = 1;
    for (size_t rule = 0; rule < MOST_RULES + 1; rule++) {
        large[len++] = 1;
        large[len++] = 0;
    }
    len = end_file(large, len, MOST_RULES + 1);
    expect_refusal(large, len, 8, "513 rules: 8");

    len = constrained(large, 16);
    retention_file found = retention_accept(large, len);
    expect(found.refusal == 0 && found.facts == 21 && found.rules == 512
               && found.exceptions == 512 && found.constraints == 16 && found.step_bytes == 4,
           "512 rules and 16 constraint facts are accepted");
    outcome searched = search(large, len);
    expect(counted(&searched, 1, 1), "512 rules and 16 constraint facts: searched");
    len = constrained(large, 17);
    searched = search(large, len);
    expect(refused(&searched, 40), "17 constraint facts: 40");
}

/* The steps from the first up to the fact's own, in bytes; 0 where it has none. */
static size_t row_for(const outcome *found, size_t fact)
{
    for (size_t step = 0; step < found->counts.steps; step++)
        if (found->steps[4 * step + 1] == fact)
            return 4 * (step + 1);
    return 0;
}

static int says(retention_verdict reply, uint32_t verdict)
{
    return reply.refusal == 0 && reply.verdict == verdict;
}

/* The check says yes to the row of each fact in the set that was found. */
static int rows_pass(const uint8_t *file, size_t len, const outcome *found,
                     const uint8_t *set, size_t facts)
{
    for (size_t fact = 0; fact < facts; fact++) {
        size_t row = row_for(found, fact);
        if ((row > 0) != (set[fact] == 1))
            return 0;
        if (row > 0 && !says(retention_check(file, len, set, facts, (uint32_t)fact,
                                             found->steps, row), 1))
            return 0;
    }
    return 1;
}

/* It says no to every fact outside the set, by all steps and then any rule. */
static int attempts_fail(const uint8_t *file, size_t len, const outcome *found,
                         const uint8_t *set, size_t facts, size_t rules)
{
    uint8_t row[4 * (MOST_FACTS + 1)];
    size_t known = 4 * (size_t)found->counts.steps;
    memcpy(row, found->steps, known);
    for (size_t fact = 0; fact < facts; fact++) {
        for (size_t rule = 0; set[fact] == 0 && rule < rules; rule++) {
            row[known] = 6;
            row[known + 1] = (uint8_t)fact;
            row[known + 2] = (uint8_t)(rule >> 8);
            row[known + 3] = (uint8_t)rule;
            if (!says(retention_check(file, len, set, facts, (uint32_t)fact, row, known + 4), 0))
                return 0;
        }
    }
    return 1;
}

/* It says yes to the grounds of each fact in the set, and no to them without their first
   step; a fact outside has none. */
static int grounds_pass(const uint8_t *file, size_t len, const outcome *found, size_t order_len,
                        const uint8_t *set, size_t facts)
{
    for (uint32_t fact = 0; fact < facts; fact++) {
        outcome kept = grounds(file, len, found->order, order_len, fact);
        size_t row = 4 * (size_t)kept.counts.steps;
        if (set[fact] == 0 && !refused(&kept, 50))
            return 0;
        if (set[fact] == 1 && (kept.counts.refusal != 0
            || !says(retention_check(file, len, set, facts, fact, kept.steps, row), 1)
            || !says(retention_check(file, len, set, facts, fact, kept.steps + 4, row - 4), 0)))
            return 0;
    }
    return 1;
}

/* What a caller does with the answer of a search: all of it from its buffers. */
static void as_a_caller(const uint8_t *file, size_t len, const char *name)
{
    char what[96];
    uint8_t set[MOST_FACTS] = {0};
    retention_file counts = retention_accept(file, len);
    outcome found = search(file, len);
    for (size_t fact = 0; fact < counts.facts; fact++)
        set[fact] = found.fact_marks[fact] == 1;
    snprintf(what, sizeof what, "%s: the set that the search found is stable", name);
    expect(found.counts.refusal == 0
               && says(retention_judge(file, len, NOTHING, set, counts.facts), 1), what);
    snprintf(what, sizeof what, "%s: each of its facts has its row", name);
    expect(rows_pass(file, len, &found, set, counts.facts), what);
    snprintf(what, sizeof what, "%s: no other fact has one", name);
    expect(attempts_fail(file, len, &found, set, counts.facts, counts.rules), what);
    snprintf(what, sizeof what, "%s: each of its facts has its grounds, no other has any", name);
    expect(grounds_pass(file, len, &found, 3 * (size_t)counts.exceptions, set, counts.facts), what);
    outcome again = run(file, len, found.order, 3 * (size_t)counts.exceptions);
    snprintf(what, sizeof what, "%s: the run under its order leaves the same bytes", name);
    expect(counted(&again, found.counts.stages, found.counts.steps)
               && memcmp(again.fact_marks, found.fact_marks, sizeof again.fact_marks) == 0
               && memcmp(again.rule_marks, found.rule_marks, sizeof again.rule_marks) == 0
               && memcmp(again.steps, found.steps, sizeof again.steps) == 0, what);
}

/* Document 000, example 3.1: 6 facts; 0<; 1<2; 2<0,!3; 3<1,!2; 4<2,!5; 5<2,!4 */
static const uint8_t TWO_STABLE[] = {0x10, 6, 1, 0, 1, 1, 2, 2, 1, 2, 2, 0, 3, 3, 1, 3, 2, 1,
                                     3, 2, 1, 4, 2, 2, 3, 5, 1, 5, 2, 2, 3, 4, 0x1F, 0, 6};

static void callers(void)
{
    static uint8_t large[32768];
    as_a_caller(A, sizeof A, "A");
    as_a_caller(C, sizeof C, "C");
    as_a_caller(TWO_STABLE, sizeof TWO_STABLE, "example 3.1");
    as_a_caller(large, constrained(large, 16), "512 rules, 16 constraint facts");
}

/* Of the steps (0,0) (2,2) (1,1) (4,4) three matter for fact 4. */
static void shorter_grounds(void)
{
    outcome kept = grounds(TWO_STABLE, sizeof TWO_STABLE,
                           BYTES(5, 0, 2, 5, 0, 3, 5, 0, 4, 5, 0, 5), 4);
    expect(counted(&kept, 0, 3) && HOLDS(kept.fact_marks, BYTES(1, 1, 1, 2, 1, 2))
               && HOLDS(kept.rule_marks, BYTES(0, 0, 1, 3, 1, 3))
               && HOLDS(kept.steps, BYTES(6, 0, 0, 0, 6, 2, 0, 2, 6, 4, 0, 4)),
           "example 3.1: three steps are the grounds of 4");
    kept = grounds(TWO_STABLE, sizeof TWO_STABLE, BYTES(5, 0, 2, 5, 0, 3, 5, 0, 4, 5, 0, 5), 5);
    expect(refused(&kept, 50), "example 3.1: 5 is not derived, 50");
    kept = grounds(A, sizeof A, BYTES(5, 0, 2, 5, 0, 1), 0);
    expect(counted(&kept, 0, 1) && HOLDS(kept.fact_marks, BYTES(1, 2, 1, 1))
               && HOLDS(kept.rule_marks, BYTES(0, 3, 1, 0))
               && HOLDS(kept.steps, BYTES(6, 0, 0, 0)),
           "A: one step is the ground of 0");
    kept = grounds(A, sizeof A, BYTES(5, 0, 2, 5, 0, 1), 256);
    expect(refused(&kept, 50), "A: 256 is no fact, 50");
    kept = grounds(A, sizeof A, BYTES(5, 0, 2), 256);
    expect(refused(&kept, 14), "A: the order is asked before the fact, 14");
}

/* 6 facts; 0<1,!5; 1<2; 2<0,!3; 3<!5; 4<0,!5: 0, 1 and 2 wait for each other, above 3. */
static const uint8_t WAITING[] = {0x10, 6, 1, 0, 2, 1, 3, 5, 1, 1, 2, 2, 1, 2, 2, 0, 3, 3,
                                  1, 3, 3, 5, 1, 4, 2, 0, 3, 5, 0x1F, 0, 5};

static void orders_by_rank(void)
{
    layers found = layered(A, sizeof A, 6);
    expect(unordered(&found, 52), "A: 1 and 2 are constraints of each other, 52");
    found = layered(A, sizeof A, 5);
    expect(unordered(&found, 34), "A: the buffer is asked before the cycle, 34");
    found = layered(B, sizeof B, sizeof found.order);
    expect(unordered(&found, 52), "B: 0 is a constraint of itself, 52");
    found = layered(C, sizeof C, sizeof found.order);
    expect(ordered(&found, BYTES(5, 0, 1, 5, 0, 0)), "C: order 1 0 by ranks");
    found = layered(C, sizeof C, 6);
    expect(ordered(&found, BYTES(5, 0, 1, 5, 0, 0)), "C: order 1 0 in 6 bytes");
    found = layered(C, sizeof C, 5);
    expect(unordered(&found, 34), "C: order 1 0 in 5 bytes, 34");
    found = layered(D, sizeof D, sizeof found.order);
    expect(unordered(&found, 52), "D: the constraint of 0 rests on 0, 52");
    found = layered(E, sizeof E, 0);
    expect(ordered(&found, NOTHING), "E: an empty order in no bytes");
    found = layered(F, sizeof F, 0);
    expect(ordered(&found, NOTHING), "F: a premise of itself is no cycle");
    found = layered(WAITING, sizeof WAITING, sizeof found.order);
    expect(ordered(&found, BYTES(5, 0, 3, 5, 0, 0, 5, 0, 2, 5, 0, 4)),
           "facts that wait for each other have one rank");
    found = layered(NOTHING, 0);
    expect(unordered(&found, 2), "no file and no bytes: 2");
}

/* What a caller does with an order by ranks: the run under it sets nothing aside, and it
   ends at the stable set that the search finds. */
static void by_layers(const uint8_t *file, size_t len, const char *name)
{
    char what[128];
    uint8_t set[MOST_FACTS];
    retention_file counts = retention_accept(file, len);
    layers order = layered(file, len, 3 * (size_t)counts.exceptions);
    outcome end = run(file, len, order.order, 3 * (size_t)order.reply.count);
    snprintf(what, sizeof what, "%s: the run under the order by ranks sets nothing aside", name);
    expect(order.reply.refusal == 0 && order.reply.count == counts.exceptions
               && end.counts.refusal == 0
               && memchr(end.rule_marks, 2, counts.rules) == NULL, what);
    for (size_t fact = 0; fact < counts.facts; fact++)
        set[fact] = end.fact_marks[fact] == 1;
    snprintf(what, sizeof what, "%s: it ends at a stable set", name);
    expect(says(retention_judge(file, len, NOTHING, set, counts.facts), 1), what);
    if (counts.constraints > 16)
        return;
    outcome found = search(file, len);
    int same = found.counts.refusal == 0;
    for (size_t fact = 0; fact < counts.facts; fact++)
        same &= set[fact] == (found.fact_marks[fact] == 1);
    snprintf(what, sizeof what, "%s: the search finds that set", name);
    expect(same, what);
}

/* 255 facts; 0<!1; 1<!2; and so on: as many ranks as facts, the highest for rule 0. */
static size_t ladder(uint8_t *file)
{
    size_t len = 0;
    file[len++] = 0x10;
    file[len++] = MOST_FACTS;
    for (size_t fact = 0; fact < MOST_FACTS - 1; fact++) {
        file[len++] = 1;
        file[len++] = (uint8_t)fact;
        file[len++] = 3;
        file[len++] = (uint8_t)(fact + 1);
    }
    return end_file(file, len, MOST_FACTS - 1);
}

static void callers_by_layers(void)
{
    static uint8_t large[2048];
    size_t len = ladder(large);
    layers found = layered(large, len, sizeof found.order);
    int down = found.reply.refusal == 0 && found.reply.count == MOST_FACTS - 1;
    for (size_t place = 0; down && place < found.reply.count; place++)
        down = found.order[3 * place] == 5 && found.order[3 * place + 1] == 0
            && found.order[3 * place + 2] == found.reply.count - 1 - place;
    expect(down, "255 ranks: the last rule is the first of the order");
    by_layers(large, len, "255 ranks");
    by_layers(C, sizeof C, "C");
    by_layers(E, sizeof E, "E");
    by_layers(F, sizeof F, "F");
    by_layers(WAITING, sizeof WAITING, "facts that wait for each other");
}

/* Two orders of a file, and the reply that is expected: the refusal, and which of the two. */
typedef struct {
    const uint8_t *file;
    size_t file_len;
    const uint8_t *first;
    size_t first_len;
    const uint8_t *second;
    size_t second_len;
    uint32_t refusal, which;
    const char *name;
} order_pair;

static void choose_each(const order_pair *pairs, size_t count)
{
    for (const order_pair *pair = pairs; pair < pairs + count; pair++) {
        retention_choice reply = retention_better(pair->file, pair->file_len, pair->first,
                                                  pair->first_len, pair->second, pair->second_len);
        expect(reply.refusal == pair->refusal && reply.which == pair->which, pair->name);
    }
}

/* C beside B: 4 facts; 0<!1; 1<!2; 3<!3. Rule 2 is set aside under every order. */
static const uint8_t C_BESIDE_B[] = {0x10, 4, 1, 0, 3, 1, 1, 1, 3, 2, 1, 3, 3, 3, 0x1F, 0, 3};

/* Under 0 1 rule 1 of C is set aside, under 1 0 none is. */
static void better_orders(void)
{
    const order_pair pairs[] = {
        {C, sizeof C, BYTES(5, 0, 0, 5, 0, 1), BYTES(5, 0, 1, 5, 0, 0), 0, 2,
         "C: of 0 1 and 1 0 the second"},
        {C, sizeof C, BYTES(5, 0, 1, 5, 0, 0), BYTES(5, 0, 0, 5, 0, 1), 0, 1,
         "C: of 1 0 and 0 1 the first"},
        {C, sizeof C, BYTES(5, 0, 0, 5, 0, 1), BYTES(5, 0, 0, 5, 0, 1), 0, 1,
         "C: of 0 1 twice the first"},
        {A, sizeof A, BYTES(5, 0, 2, 5, 0, 1), BYTES(5, 0, 1, 5, 0, 2), 0, 1,
         "A: of 2 1 and 1 2, which set nothing aside, the first"},
        {C_BESIDE_B, sizeof C_BESIDE_B, BYTES(5, 0, 0, 5, 0, 1, 5, 0, 2),
         BYTES(5, 0, 2, 5, 0, 1, 5, 0, 0), 0, 2,
         "C beside B: of two set aside and one the second"},
        {C_BESIDE_B, sizeof C_BESIDE_B, BYTES(5, 0, 2, 5, 0, 1, 5, 0, 0),
         BYTES(5, 0, 0, 5, 0, 1, 5, 0, 2), 0, 1,
         "C beside B: of one set aside and two the first"},
        {C_BESIDE_B, sizeof C_BESIDE_B, BYTES(5, 0, 0, 5, 0, 1, 5, 0, 2),
         BYTES(5, 0, 2, 5, 0, 0, 5, 0, 1), 0, 1,
         "C beside B: of two set aside and two the first"},
        {E, sizeof E, NOTHING, NOTHING, 0, 1,
         "E: of two empty orders the first"},
        {F, sizeof F, NOTHING, NOTHING, 0, 1,
         "F: of two empty orders the first"},
    };
    choose_each(pairs, COUNT(pairs));
}

/* The first order's questions come before the second's, and the file's before both. */
static void refused_orders(void)
{
    const order_pair pairs[] = {
        {A, sizeof A, BYTES(5, 0, 1, 5, 0), BYTES(5, 0, 1, 5, 0, 2), 11, 0,
         "A: the first is cut, 11"},
        {A, sizeof A, BYTES(5, 0, 0), BYTES(5, 0, 1, 5, 0, 2), 12, 0,
         "A: the first is 0, 12"},
        {A, sizeof A, BYTES(5, 0, 1, 5, 0, 1), BYTES(5, 0, 1, 5, 0, 2), 13, 0,
         "A: the first is 1 1, 13"},
        {A, sizeof A, BYTES(5, 0, 1), BYTES(5, 0, 1, 5, 0, 2), 14, 0,
         "A: the first is 1, 14"},
        {A, sizeof A, BYTES(5, 0, 1, 5, 0, 2), BYTES(5, 0, 1, 5, 0), 11, 0,
         "A: the second is cut, 11"},
        {A, sizeof A, BYTES(5, 0, 1, 5, 0, 2), BYTES(5, 0, 0), 12, 0,
         "A: the second is 0, 12"},
        {A, sizeof A, BYTES(5, 0, 1, 5, 0, 2), BYTES(5, 0, 1, 5, 0, 1), 13, 0,
         "A: the second is 1 1, 13"},
        {A, sizeof A, BYTES(5, 0, 1, 5, 0, 2), BYTES(5, 0, 1), 14, 0,
         "A: the second is 1, 14"},
        {A, sizeof A, BYTES(5, 0, 1), BYTES(5), 14, 0,
         "A: the first is 1 and the second cut, 14"},
        {A, sizeof A, BYTES(5), BYTES(5, 0, 1), 11, 0,
         "A: the first is cut and the second 1, 11"},
        {A, sizeof A - 3, BYTES(5), BYTES(5, 0, 1), 3, 0,
         "A without its end: 3, whatever the orders are"},
        {NOTHING, NOTHING, NOTHING, 2, 0,
         "no file, no orders: 2"},
    };
    choose_each(pairs, COUNT(pairs));
}

/* The orders are read and not written, so they may share their bytes. */
static void orders_in_one_buffer(void)
{
    static const uint8_t row[] = {5, 0, 0, 5, 0, 1, 5, 0, 0};
    uint8_t lent[sizeof row];
    memcpy(lent, row, sizeof row);
    expect(chosen(retention_better(C, sizeof C, lent, 6, lent + 3, 6), 2),
           "C: 0 1 0 in one buffer, of 0 1 and 1 0 the second");
    expect(chosen(retention_better(C, sizeof C, lent + 3, 6, lent, 6), 1),
           "C: the same exchanged, the first");
    expect(chosen(retention_better(C, sizeof C, lent, 6, lent, 6), 1),
           "C: 0 1 as both orders, the first");
    expect(unchosen(retention_better(C, sizeof C, lent, sizeof lent, lent, 6), 13),
           "C: all of the buffer and a part of it, 13");
    expect(unchosen(retention_better(C, sizeof C, lent + 3, 6, lent + 3, 3), 14),
           "C: 1 0 and a part of it, 14");
    expect(unchosen(retention_better(C, sizeof C, lent, 6, lent, 0), 14),
           "C: 0 1 and an empty part of it, 14");
    expect(memcmp(lent, row, sizeof row) == 0, "C: the buffer is as it was");
}

static void test_loads(void)
{
    loads made = load(0, 4, 1, sizeof made.file);
    expect(loaded(&made, BYTES(0x10, 4, 1, 3, 3, 2, 3, 2, 0x1F, 0, 1)), "load 0 4 1: 11 bytes");
    made = load(0, 4, 1, 11);
    expect(loaded(&made, BYTES(0x10, 4, 1, 3, 3, 2, 3, 2, 0x1F, 0, 1)), "load 0 4 1 in 11 bytes");
    outcome end = run(made.file, made.reply.count, BYTES(5, 0, 0));
    expect(counted(&end, 1, 1) && HOLDS(end.fact_marks, BYTES(0, 0, 2, 1))
               && HOLDS(end.rule_marks, BYTES(1)) && HOLDS(end.steps, BYTES(6, 3, 0, 0)),
           "load 0 4 1 runs one stage");
    /* 10 facts; 3<!0,!4; 1<9,2; 0<3,!1; 8<!2,!9 */
    made = load(0, 10, 4, sizeof made.file);
    expect(loaded(&made, BYTES(0x10, 10, 1, 3, 3, 0, 3, 4, 1, 1, 2, 9, 2, 2, 1, 0, 2, 3, 3, 1,
                               1, 8, 3, 2, 3, 9, 0x1F, 0, 4)),
           "load 0 10 4: all turns, and the first again");
    made = load(UINT32_MAX, 255, 0, 5);
    expect(loaded(&made, BYTES(0x10, 255, 0x1F, 0, 0)), "load without rules in 5 bytes");

    made = load(0, 0, 513, 0);
    expect(unloaded(&made, 53), "load of no facts: 53");
    made = load(0, 256, 1, sizeof made.file);
    expect(unloaded(&made, 53), "load of 256 facts: 53");
    made = load(0, UINT32_MAX, 1, sizeof made.file);
    expect(unloaded(&made, 53), "load of 4,294,967,295 facts: 53");
    made = load(0, 4, 513, sizeof made.file);
    expect(unloaded(&made, 54), "load of 513 rules: 54");
    made = load(0, 4, UINT32_MAX, 0);
    expect(unloaded(&made, 54), "load of 4,294,967,295 rules: 54");
    made = load(0, 4, 1, 10);
    expect(unloaded(&made, 55), "load 0 4 1 in 10 bytes: 55");
    made = load(0, 255, 512, MOST_LOADED - 1);
    expect(unloaded(&made, 55), "load 0 255 512 in 3,076 bytes: 55");
    made = load(0, 4, 0, 0);
    expect(unloaded(&made, 55), "load without rules in no bytes: 55");
}

/* A load of the largest counts is accepted, and a second one has the same bytes. Of its
   rules 171, the numbers 1, 4 and so on up to 511, have no constraint. */
static void largest_loads(void)
{
    static const uint32_t starts[] = {0, 1, 2000000000, UINT32_MAX};
    int accepted = 1, equal = 1;
    for (size_t n = 0; n < COUNT(starts); n++) {
        loads made = load(starts[n], MOST_FACTS, MOST_RULES, MOST_LOADED);
        loads again = load(starts[n], MOST_FACTS, MOST_RULES, sizeof again.file);
        retention_file found = retention_accept(made.file, made.reply.count);
        accepted &= made.reply.refusal == 0 && made.reply.count == MOST_LOADED
            && found.refusal == 0 && found.facts == MOST_FACTS && found.rules == MOST_RULES
            && found.exceptions == MOST_RULES - 171;
        equal &= loaded(&again, made.file, made.reply.count);
    }
    expect(accepted, "loads of 255 facts and 512 rules are accepted");
    expect(equal, "loads with the same numbers are equal");
}

static int prints(const uint8_t *file, size_t len, const char *text)
{
    uint8_t out[64];
    size_t text_len = strlen(text);
    memset(out, UNTOUCHED, sizeof out);
    if (retention_panel(file, len, out, text_len - 1) != text_len || !HOLDS(out, NOTHING))
        return 0;
    return retention_panel(file, len, out, sizeof out) == text_len
        && HOLDS(out, (const uint8_t *)text, text_len);
}

static void panel(void)
{
    expect(prints(C, sizeof C, "F 3 R 2 S 1\nD 0 0\nX 1\nA 1\nN\n"), "panel for C");
    expect(prints(E, sizeof E, "F 0 R 0 S 0\nY\n"), "panel for E");
    expect(prints(NOTHING, "E 2\n"), "panel for empty input");
    loads made = load(0, 4, 1, 11);
    expect(prints(made.file, made.reply.count, "F 4 R 1 S 1\nD 3 0\nX 2\nY\n"),
           "panel for load 0 4 1");
}

/* A file of 3 facts begins; its length so far. */
static size_t begin_file(uint8_t *file)
{
    file[0] = 0x10;
    file[1] = 3;
    return 2;
}

/* Adds the rule 0< with so many premises, all 1, and so many constraints, all 2. */
static size_t add_rule(uint8_t *file, size_t len, size_t premises, size_t constraints)
{
    file[len++] = 1;
    file[len++] = 0;
    for (size_t item = 0; item < premises + constraints; item++) {
        file[len++] = item < premises ? 2 : 3;
        file[len++] = item < premises ? 1 : 2;
    }
    return len;
}

static size_t one_rule(uint8_t *file, size_t premises, size_t constraints)
{
    return end_file(file, add_rule(file, begin_file(file), premises, constraints), 1);
}

/* The first rule has 24 premises, the second so many constraints. */
static size_t two_rules(uint8_t *file, size_t constraints)
{
    size_t len = add_rule(file, begin_file(file), 24, 0);
    return end_file(file, add_rule(file, len, 0, constraints), 2);
}

/* The 25th premise or constraint item of one rule is refused, by every function. */
static void rules_too_long(void)
{
    uint8_t file[256];
    size_t len = one_rule(file, 23, 1);
    retention_file found = retention_accept(file, len);
    expect(found.refusal == 0 && found.facts == 3 && found.rules == 1 && found.exceptions == 1
               && found.constraints == 1, "23 premises and a constraint are accepted");
    len = two_rules(file, 24);
    found = retention_accept(file, len);
    expect(found.refusal == 0 && found.rules == 2 && found.exceptions == 1,
           "24 items in each of two rules are accepted");
    len = two_rules(file, 25);
    expect_refusal(file, len, 51, "24 items in one rule, 25 in the next: 51");
    len = one_rule(file, 24, 1);
    expect_refusal(file, len, 51, "24 premises and a constraint: 51");
    len = one_rule(file, 25, 0);
    expect_refusal(file, len, 51, "25 equal premises: 51");
    file[2 + 2 + 2 * 24 + 1] = 3;
    expect_refusal(file, len, 6, "a 25th premise of a fact too high: 6");
    expect_refusal(file, 2 + 2 + 2 * 24 + 1, 5, "a 25th premise that is cut: 5");

    len = one_rule(file, 25, 0);
    outcome result = run(file, len, NOTHING);
    expect(refused(&result, 51), "run of 25 premises: 51");
    result = search(file, len);
    expect(refused(&result, 51), "search of 25 premises: 51");
    result = grounds(file, len, NOTHING, 0);
    expect(refused(&result, 51), "grounds of 25 premises: 51");
    layers order = layered(file, len, 0);
    expect(unordered(&order, 51), "layers of 25 premises: 51");
    retention_verdict reply = retention_judge(file, len, NOTHING, BYTES(0, 0, 0));
    expect(reply.refusal == 51 && reply.verdict == 0, "judge of 25 premises: 51");
    reply = retention_check(file, len, BYTES(0, 0, 0), 0, NOTHING);
    expect(reply.refusal == 51 && reply.verdict == 0, "check of 25 premises: 51");
    expect(unchosen(retention_better(file, len, NOTHING, NOTHING), 51),
           "better of 25 premises: 51");
    expect(prints(file, len, "E 51\n"), "panel for 25 premises");
}

/* The file A with fact 2 unread: rule 1, which is 1<0,!2, is withheld. */
static const uint8_t A_UNREAD[] = {0x10, 4, 7, 2, 1, 0, 1, 1, 2, 0, 3, 2, 1,
                                   2,    2, 0, 3, 1, 1, 3, 2, 2, 0x1F, 0, 4};
/* The file B with fact 0 unread twice: its one rule, 0<!0, is withheld. */
static const uint8_t B_UNREAD[] = {0x10, 1, 7, 0, 7, 0, 1, 0, 3, 0, 0x1F, 0, 1};
/* The file F with fact 0 unread: its one rule, 0<0, is plain. */
static const uint8_t F_UNREAD[] = {0x10, 1, 7, 0, 1, 0, 2, 0, 0x1F, 0, 1};

/* A withheld rule is counted and named, and nothing is concluded by it. */
static void unread_facts(void)
{
    retention_file found = retention_accept(A_UNREAD, sizeof A_UNREAD);
    expect(found.refusal == 0 && found.facts == 4 && found.rules == 4 && found.exceptions == 2
               && found.constraints == 1 && found.step_bytes == 4,
           "A, 2 unread: 2 exception rules, 1 constraint fact");
    outcome end = run(A_UNREAD, sizeof A_UNREAD, BYTES(5, 0, 1, 5, 0, 2));
    expect(counted(&end, 1, 3) && HOLDS(end.fact_marks, BYTES(1, 2, 1, 1))
               && HOLDS(end.rule_marks, BYTES(0, 4, 1, 0))
               && HOLDS(end.steps, BYTES(6, 0, 0, 0, 6, 2, 0, 2, 6, 3, 0, 3)),
           "A, 2 unread: the run passes over rule 1, which has mark 4");
    end = run(A_UNREAD, sizeof A_UNREAD, BYTES(5, 0, 2));
    expect(refused(&end, 14), "A, 2 unread: an order without rule 1, 14");
    end = run(A_UNREAD, sizeof A_UNREAD, BYTES(5, 0, 1, 5, 0, 1));
    expect(refused(&end, 13), "A, 2 unread: an order with rule 1 twice, 13");
    outcome searched = search(A_UNREAD, sizeof A_UNREAD);
    expect(counted(&searched, 1, 3) && HOLDS(searched.fact_marks, BYTES(1, 2, 1, 1))
               && HOLDS(searched.rule_marks, BYTES(0, 4, 1, 0))
               && HOLDS(searched.order, BYTES(5, 0, 2, 5, 0, 1)),
           "A, 2 unread: the search takes {0,2,3}, rule 1 is the last of its order");
    outcome kept = grounds(A_UNREAD, sizeof A_UNREAD, BYTES(5, 0, 1, 5, 0, 2), 2);
    expect(counted(&kept, 0, 2) && HOLDS(kept.rule_marks, BYTES(0, 4, 1, 0))
               && HOLDS(kept.steps, BYTES(6, 0, 0, 0, 6, 2, 0, 2)),
           "A, 2 unread: the grounds of 2, with mark 4 for rule 1");
    kept = grounds(A_UNREAD, sizeof A_UNREAD, BYTES(5, 0, 1, 5, 0, 2), 1);
    expect(refused(&kept, 50), "A, 2 unread: 1 is not derived, 50");
    expect(says(retention_judge(A_UNREAD, sizeof A_UNREAD, NOTHING, BYTES(1, 0, 1, 1)), 1),
           "A, 2 unread: {0,2,3} is stable");
    expect(says(retention_judge(A_UNREAD, sizeof A_UNREAD, BYTES(5, 0, 1), BYTES(1, 0, 1, 1)), 1),
           "A, 2 unread: it is with rule 1 listed too");
    expect(says(retention_judge(A_UNREAD, sizeof A_UNREAD, NOTHING, BYTES(1, 1, 0, 0)), 0),
           "A, 2 unread: {0,1} is not stable");
    expect(says(retention_check(A_UNREAD, sizeof A_UNREAD, BYTES(1, 1, 0, 0), 1,
                                BYTES(6, 0, 0, 0, 6, 1, 0, 1)), 0),
           "A, 2 unread: a step by rule 1 is no proof");
    expect(says(retention_check(A_UNREAD, sizeof A_UNREAD, BYTES(1, 0, 1, 1), 2,
                                BYTES(6, 0, 0, 0, 6, 2, 0, 2)), 1),
           "A, 2 unread: a step by rule 2 is one");
    layers order = layered(A_UNREAD, sizeof A_UNREAD, 6);
    expect(ordered(&order, BYTES(5, 0, 2, 5, 0, 1)),
           "A, 2 unread: no cycle is left, rule 1 is the last of the order");
    order = layered(A_UNREAD, sizeof A_UNREAD, 3);
    expect(unordered(&order, 34), "A, 2 unread: the order needs room for rule 1, 34");
    expect(prints(A_UNREAD, sizeof A_UNREAD, "F 4 R 4 S 1\nD 0 0\nD 2 2\nD 3 3\nX 1\nY\n"),
           "panel for A, 2 unread");
    as_a_caller(A_UNREAD, sizeof A_UNREAD, "A, 2 unread");
    by_layers(A_UNREAD, sizeof A_UNREAD, "A, 2 unread");
}

/* C with fact 2 unread: rule 1, which is 1<!2, is withheld. */
static const uint8_t C_UNREAD[] = {0x10, 3, 7, 2, 1, 0, 3, 1, 1, 1, 3, 2, 0x1F, 0, 2};
/* 5 facts, 4 unread; 0<!1; 1<!2; 3<1,!4: the body of the withheld rule 2 holds under 1 0 2. */
static const uint8_t C_AND_WITHHELD[] = {0x10, 5, 7, 4, 1, 0, 3, 1, 1, 1, 3,
                                         2,    1, 3, 2, 1, 3, 4, 0x1F, 0, 3};

/* A withheld rule is named by both orders, and set aside under neither. */
static void better_orders_unread(void)
{
    const order_pair pairs[] = {
        {C_UNREAD, sizeof C_UNREAD, BYTES(5, 0, 0, 5, 0, 1), BYTES(5, 0, 1, 5, 0, 0), 0, 1,
         "C, 2 unread: of 0 1 and 1 0 the first"},
        {C_UNREAD, sizeof C_UNREAD, BYTES(5, 0, 1, 5, 0, 0), BYTES(5, 0, 0), 14, 0,
         "C, 2 unread: the second without rule 1, 14"},
        {C_AND_WITHHELD, sizeof C_AND_WITHHELD, BYTES(5, 0, 0, 5, 0, 1, 5, 0, 2),
         BYTES(5, 0, 1, 5, 0, 0, 5, 0, 2), 0, 2,
         "C and a withheld rule: of one set aside and none the second"},
    };
    choose_each(pairs, COUNT(pairs));
}

/* All rules withheld, none, and one of the 17 constraint facts in withheld rules alone. */
static void more_unread_facts(void)
{
    outcome searched = search(B_UNREAD, sizeof B_UNREAD);
    expect(counted(&searched, 0, 0) && HOLDS(searched.fact_marks, BYTES(0))
               && HOLDS(searched.rule_marks, BYTES(4)) && HOLDS(searched.order, BYTES(5, 0, 0)),
           "B, 0 unread: the empty set, with the rule in the order");
    expect(prints(B_UNREAD, sizeof B_UNREAD, "F 1 R 1 S 0\nY\n"),
           "panel for B, 0 unread: nothing is set aside");
    as_a_caller(B_UNREAD, sizeof B_UNREAD, "B, 0 unread");
    by_layers(B_UNREAD, sizeof B_UNREAD, "B, 0 unread");
    outcome end = run(F_UNREAD, sizeof F_UNREAD, NOTHING);
    expect(counted(&end, 0, 0) && HOLDS(end.rule_marks, BYTES(0)),
           "F, 0 unread: a plain rule has mark 0");

    static uint8_t large[32768];
    size_t len = constrained(large, 17);
    memmove(large + 4, large + 2, len - 2);
    large[2] = 7;
    large[3] = 16;
    len += 2;
    retention_file found = retention_accept(large, len);
    expect(found.refusal == 0 && found.rules == 512 && found.exceptions == 512
               && found.constraints == 16, "17 constraint facts, one unread: 16 are counted");
    as_a_caller(large, len, "512 rules, 17 constraint facts, one unread");
}

/* A 07 item after a rule is refused, by every function. */
static void unread_after_a_rule(void)
{
    static const uint8_t file[] = {0x10, 1, 1, 0, 7, 0, 0x1F, 0, 1};
    expect_refusal(file, sizeof file, 56, "a 07 item after a rule: 56");
    expect_refusal(BYTES(0x10, 1, 1, 0, 7, 1, 0x1F, 0, 1), 6, "of a fact too high: 6");
    expect_refusal(BYTES(0x10, 1, 1, 0, 7), 5, "without its body: 5");
    expect_refusal(BYTES(0x10, 1, 7, 0), 3, "a 07 item and nothing more: 3");
    expect_refusal(BYTES(0x10, 0, 7, 0, 0x1F, 0, 0), 6, "a 07 item of no facts: 6");
    outcome result = run(file, sizeof file, NOTHING);
    expect(refused(&result, 56), "run of a 07 item after a rule: 56");
    result = search(file, sizeof file);
    expect(refused(&result, 56), "search of it: 56");
    result = grounds(file, sizeof file, NOTHING, 0);
    expect(refused(&result, 56), "grounds of it: 56");
    layers order = layered(file, sizeof file, sizeof order.order);
    expect(unordered(&order, 56), "layers of it: 56");
    retention_verdict reply = retention_judge(file, sizeof file, NOTHING, BYTES(1));
    expect(reply.refusal == 56 && reply.verdict == 0, "judge of it: 56");
    reply = retention_check(file, sizeof file, BYTES(1), 0, BYTES(6, 0, 0, 0));
    expect(reply.refusal == 56 && reply.verdict == 0, "check of it: 56");
    expect(unchosen(retention_better(file, sizeof file, NOTHING, NOTHING), 56),
           "better of it: 56");
    expect(prints(file, sizeof file, "E 56\n"), "panel for it");
}

/* What a kind gets between the rule and the end of a file: 01 opens a second rule, and
   1F ends the file with the bytes 00 1F, so both give another count of rules. */
static uint32_t refusal_in_file(unsigned kind)
{
    switch (kind) {
    case 0x02: case 0x03: return 0;
    case 0x01: case 0x1F: return 9;
    case 0x07: return 56;
    default: return 4;
    }
}

/* The same before any rule: 01 opens one that is not counted. */
static uint32_t refusal_before_rules(unsigned kind)
{
    switch (kind) {
    case 0x07: return 0;
    case 0x02: case 0x03: return 7;
    case 0x01: case 0x1F: return 9;
    default: return 4;
    }
}

/* Each of the 256 kinds in each row of items: the row decides which may stand in it. */
static void kinds(void)
{
    int first = 1, in_file = 1, before_rules = 1, in_order = 1, in_proof = 1;
    for (unsigned kind = 0; kind < 256; kind++) {
        uint8_t byte = (uint8_t)kind;
        uint32_t refusal = retention_accept(BYTES(byte, 1, 0x1F, 0, 0)).refusal;
        first &= refusal == (kind == 0x10 ? 0 : 2);
        refusal = retention_accept(BYTES(0x10, 1, 1, 0, byte, 0, 0x1F, 0, 1)).refusal;
        in_file &= refusal == refusal_in_file(kind);
        refusal = retention_accept(BYTES(0x10, 1, byte, 0, 0x1F, 0, 0)).refusal;
        before_rules &= refusal == refusal_before_rules(kind);
        outcome result = run(A, sizeof A, BYTES(byte, 0, 1, 5, 0, 2));
        in_order &= kind == 0x05 ? counted(&result, 1, 2) : refused(&result, 11);
        retention_verdict reply =
            retention_check(A, sizeof A, BYTES(1, 1, 0, 0), 0, BYTES(byte, 0, 0, 0));
        in_proof &= kind == 0x06 ? says(reply, 1) : reply.refusal == 23 && reply.verdict == 0;
    }
    expect(first, "a file begins with kind 10 and no other");
    expect(in_file, "the other kinds of a file are 01, 02, 03, 07 and 1F");
    expect(before_rules, "kind 07 stands before the first rule alone");
    expect(in_order, "the kind of an order is 05");
    expect(in_proof, "the kind of a proof is 06");
}

int main(void)
{
    example_a();
    orders_for_a();
    example_b();
    example_c();
    examples_d_e_f();
    files();
    callers();
    shorter_grounds();
    orders_by_rank();
    callers_by_layers();
    better_orders();
    refused_orders();
    orders_in_one_buffer();
    test_loads();
    largest_loads();
    panel();
    rules_too_long();
    unread_facts();
    better_orders_unread();
    more_unread_facts();
    unread_after_a_rule();
    kinds();
    printf("%d failed\n", failures);
    return failures == 0 ? 0 : 1;
}

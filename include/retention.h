/*
 * The retention rule engine.
 *
 * Facts and rules are counted separately, each from 0. A rule file, an order, a
 * list of rules and a proof are rows of items. An item is one byte of kind and
 * then a body, whose length the kind fixes (kinds in hexadecimal, lengths in
 * bytes, numbers of two bytes high byte first):
 *
 *   kind  body  where            what
 *    10     1   file, first      the count of facts, 0 to 255
 *    07     1   file, between the first item and the first rule  an unread fact
 *    01     1   file             opens a rule: its conclusion
 *    02     1   file             a premise of the rule last opened
 *    03     1   file             a constraint of the rule last opened
 *    1F     2   file, last       the count of rules, 0 to 512
 *    05     2   order, list      a rule number
 *    06     3   proof            a step: 1 byte of fact, then 2 of rule
 *
 * There is no other kind. A rule has at most 24 items of the kinds 02 and 03
 * together, repeats counted.
 *
 * A fact set is one byte for each fact, 1 in, 0 out. A plain rule has no
 * constraint, an exception rule has one or more. An exception rule with an
 * unread constraint is withheld, and every function works on the file without
 * the withheld rules; the other rules are in force. A withheld rule is still a
 * rule and an exception rule of the file wherever these are counted or named. A
 * plain rule is never withheld: an unread fact may be a premise or a conclusion
 * as any other, and to name it again changes nothing. A constraint fact is a
 * fact that is a constraint of some rule in force. Stable means stable for the
 * rules in force.
 *
 * What a caller owes
 *
 *   - Every pointer is non-null. With its length it names bytes that stay valid
 *     and unchanged by others during the call. With length 0 it is not read or
 *     written and may be any non-null address.
 *   - Lent buffers, those that are not const, overlap neither each other nor an
 *     input. Inputs may overlap, or be one.
 *
 * What a caller gets
 *
 *   - The reply comes back by value. Its refusal is 0 where there is none, and
 *     then its other values hold. On a refusal all its other values are 0, and
 *     no byte of a lent buffer has changed.
 *   - In a lent buffer the bytes past those written keep their contents.
 *   - Nothing is kept between calls, and nothing is allocated for the caller.
 *   - The stack that a call needs on x86-64, as measured: retention_load less
 *     than 1 KB, retention_check 31 KB, retention_layered 38 KB,
 *     retention_accept 60 KB, retention_better 68 KB, retention_grounds and
 *     retention_judge 69 KB, retention_run 71 KB, retention_panel 78 KB,
 *     retention_search 123 KB.
 *
 * Refusals
 *
 * Each is the number of the first question that gets a no. The questions are
 * asked in the order given with each function. The file's are 1 to 6, 56, 7, 51
 * and 8 to 10, in the order below.
 *
 *   the file, from the start; 3 to 10, 51 and 56 for each next item
 *    1  At most 32,767 bytes?
 *    2  Does it begin with a whole 10 item?
 *    3  Is there a next byte?
 *    4  Is its kind 01, 02, 03, 07 or 1F?
 *    5  Is the body whole?
 *    6  01, 02, 03, 07: is the fact below the count?
 *   56  07: does it stand before the first rule?
 *    7  02, 03: has a rule been opened?
 *   51  02, 03: has that rule fewer than 24 items of these kinds before it?
 *    8  01: fewer than 512 rules before it?
 *    9  1F: does it give the number of rules?
 *   10  1F: does the file end there?
 *
 *   an order or a list; 12 and 13 for each item; of two orders all are asked of
 *   the first, then all of the second
 *   11  Whole 05 items throughout?
 *   12  Does it name an exception rule of the file, withheld or not?
 *   13  Is the rule not named before?
 *   14  An order: is every exception rule named, the withheld ones too?
 *
 *   a fact set
 *   21  One byte for each fact?
 *   22  Every byte 0 or 1?
 *
 *   a proof check
 *   23  Whole 06 items throughout?
 *   24  Is the asked fact below the count? (asked before 23)
 *
 *   lent buffers
 *   31  Fact marks: at least the count of facts?
 *   32  Rule marks: at least the count of rules, the withheld ones too?
 *   33  Steps: at least 4 x facts?
 *   34  Order: at least 3 x exception rules, the withheld ones too?
 *
 *   the search
 *   40  At most 16 constraint facts?
 *   41  Is there a stable set?
 *
 *   the grounds of a fact
 *   50  Did the run derive the fact? (a number not below the count gets no)
 *
 *   the order by rank
 *   52  Does no cycle of dependencies go through a constraint? (A fact depends
 *       on each premise and each constraint of each rule in force that
 *       concludes it.)
 *
 *   the test load
 *   53  Is the count of facts 1 to 255?
 *   54  Is the count of rules at most 512?
 *   55  File: at least 5 + 6 x rules bytes?
 */
#ifndef RETENTION_H
#define RETENTION_H

#include <stddef.h>
#include <stdint.h>

#ifdef __cplusplus
extern "C" {
#endif

/* The counts of a run: its stages, and the steps it wrote. */
typedef struct {
    uint32_t refusal, stages, steps;
} retention_counts;

/* A count: of the steps that were kept, of the rules named, or of the bytes of
 * a file. */
typedef struct {
    uint32_t refusal, count;
} retention_count;

/* An answer: verdict 1 for stable or yes, 0 for not. */
typedef struct {
    uint32_t refusal, verdict;
} retention_verdict;

/* A choice between two orders: which is 1 for the first, 2 for the second, 0 on
 * a refusal. */
typedef struct {
    uint32_t refusal, which;
} retention_choice;

/* An accepted file: its facts, rules, exception rules and constraint facts. The
 * rules and the exception rules have the withheld ones among them; a constraint
 * that stands in withheld rules alone is no constraint fact. step_bytes is the
 * bytes of one step, 4 here. */
typedef struct {
    uint32_t refusal, facts, rules, exceptions, constraints, step_bytes;
} retention_file;

/*
 * Is the file accepted, and what does it count? The counts give the sizes of
 * the buffers that the other functions need.
 * Questions: the file's.
 */
retention_file retention_accept(const uint8_t *file, size_t file_len);

/*
 * Runs the file under an order that names every exception rule once, and passes
 * over the withheld ones. Writes one mark for each fact (0 open, 1 derived,
 * 2 ruled out), one for each rule (0 plain, 1 applied at a stage, 2 set aside,
 * 3 other, 4 withheld), and the steps in order, as 06 items.
 * Questions: the file's, 11 to 14, 31 to 33.
 */
retention_counts retention_run(const uint8_t *file, size_t file_len,
                               const uint8_t *order, size_t order_len,
                               uint8_t *fact_marks, size_t fact_marks_len,
                               uint8_t *rule_marks, size_t rule_marks_len,
                               uint8_t *steps, size_t steps_len);

/*
 * Is the set stable for the rules in force less the listed exception rules? A
 * list may name withheld rules, which changes nothing.
 * Questions: the file's, 11 to 13, 21, 22.
 */
retention_verdict retention_judge(const uint8_t *file, size_t file_len,
                                  const uint8_t *list, size_t list_len,
                                  const uint8_t *set, size_t set_len);

/*
 * Is the row of steps a proof of the fact that the set admits? An empty row,
 * an unknown fact or rule in a step, or a step by a withheld rule gets the
 * verdict 0 and no refusal.
 * Questions: the file's, 21, 22, 24, 23.
 */
retention_verdict retention_check(const uint8_t *file, size_t file_len,
                                  const uint8_t *set, size_t set_len,
                                  uint32_t fact,
                                  const uint8_t *proof, size_t proof_len);

/*
 * Finds the earliest stable set of the file: of two stable sets the earlier
 * lacks the highest constraint fact on which they differ. Writes an order under
 * which the run ends at that set, as 05 items, and the marks and steps of that
 * run; withheld rules have mark 4 and stand last in the order, ascending. The
 * set is the facts marked 1. The steps from the first up to a fact's own are a
 * proof of it that the set admits.
 * Questions: the file's, 31 to 34, 40, 41.
 */
retention_counts retention_search(const uint8_t *file, size_t file_len,
                                  uint8_t *fact_marks, size_t fact_marks_len,
                                  uint8_t *rule_marks, size_t rule_marks_len,
                                  uint8_t *steps, size_t steps_len,
                                  uint8_t *order, size_t order_len);

/*
 * The grounds of one fact: runs the file under the order as retention_run does,
 * and writes the marks of that run, 4 for a withheld rule among them, but of
 * its steps only those that the fact rests on, and returns their count. These
 * are the fact's own step and, with a step, the step of each premise of its
 * rule. They stand in their old order, and the bytes past them keep their
 * contents: no other step is written. They are a proof of the fact that the set
 * of the facts marked 1 admits, and no proof of it uses only some of their
 * rules.
 * Questions: the file's, 11 to 14, 31 to 33, 50.
 */
retention_count retention_grounds(const uint8_t *file, size_t file_len,
                                  const uint8_t *order, size_t order_len,
                                  uint32_t fact,
                                  uint8_t *fact_marks, size_t fact_marks_len,
                                  uint8_t *rule_marks, size_t rule_marks_len,
                                  uint8_t *steps, size_t steps_len);

/*
 * The order by rank of a layered file. Each fact has its least rank: at least
 * that of every premise of its rules in force, above that of every constraint
 * of theirs, and 0 where nothing forces more. Writes the exception rules in
 * force by rank of conclusion, then by number, and behind them the withheld
 * ones, ascending, as 05 items, and returns how many all of these are. Under
 * this order the run sets nothing aside, and the facts that it marks 1 are the
 * only stable set of the file.
 * Questions: the file's, 34, 52.
 */
retention_count retention_layered(const uint8_t *file, size_t file_len,
                                  uint8_t *order, size_t order_len);

/*
 * The better of two orders: the one under which the run sets aside fewer rules,
 * the first when they are equal. These are the rules to which retention_run
 * gives mark 2; a withheld rule, mark 4, is not among them. Each order names
 * every exception rule once, the withheld ones too. The reply's which is 1 for
 * the first order, 2 for the second, 0 on a refusal. Nothing is written. The
 * two orders may overlap, or be one.
 * Questions: the file's, 11 to 14 of the first order, 11 to 14 of the second.
 */
retention_choice retention_better(const uint8_t *file, size_t file_len,
                                  const uint8_t *first, size_t first_len,
                                  const uint8_t *second, size_t second_len);

/*
 * A test load: writes a rule file with so many facts and rules, drawn from the
 * start, and returns its length. The same three numbers give the same bytes
 * everywhere. Each draw adds 2654435769 to the state, which is the start before
 * the first one, modulo 2 to the 32, and takes state / 65536, whole part, modulo
 * the count of facts. A rule draws three facts: its conclusion, a 01 item, and
 * then two items that are by turns 03 03 (rule 0), 02 02, and 02 03. The file is
 * accepted. It has 5 + 6 x rules bytes, at most 3,077.
 * Questions: 53 to 55.
 */
retention_count retention_load(uint32_t start, uint32_t facts, uint32_t rules,
                               uint8_t *out, size_t out_len);

/*
 * Writes what the panel program prints for the file, and returns the length of
 * that text. Where the buffer is shorter nothing is written; a call with length
 * 0 asks for the length. The rules that it counts have the withheld ones among
 * them, and of these none is shown as set aside. The text of a refusal is "E n"
 * and a line end, and there is no zero byte after the text.
 * Questions: the file's, answered by the text.
 */
uint32_t retention_panel(const uint8_t *file, size_t file_len,
                         uint8_t *out, size_t out_len);

#ifdef __cplusplus
}
#endif

#endif

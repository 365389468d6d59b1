#ifndef TESTS_H
#define TESTS_H

void test_questions(void);  /* version, sizes, words and the opcode table */
void test_cases(void);      /* the twelve cases, a step each */
void test_steps(void);      /* what a step refuses, and leaves */
void test_interrupts(void); /* a HALT that its handler returns to, dispatches over IE and IF */
void test_runs(void);       /* the worked example, counts, refusals */
void test_images(void);     /* images run where they lie */
void test_saved(void);      /* heads and images, there and back, refusals */
void test_listing(void);    /* bytes as text in both editions, its room, what stays */
void test_assembling(void); /* text as bytes, the ranges, the refusals by line, what stays */
void test_nulls(void);      /* NULL with a length of 0 */

#endif

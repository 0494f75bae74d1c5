/*
 * Sums over every bus word, every image at every address, and fields in and
 * out of their sizes, as text that the proved program word_sums prints too.
 * A sum begins at 0 and takes in one value after the other:
 *
 *   sum = (sum * 31 + value) modulo 65521
 *
 * Lines, fields parted by tabs.  An answer is its number and, if that is 0,
 * its word.
 *
 *   command BLOCK SUM   of each of the 4,096 words of a block 0 to 15: its
 *                       fields, then the answer to these fields
 *   status BLOCK SUM    the same, then the image of the word
 *   fields ADDRESS SUM  for sub-address 0 to 33, last field 0 to 34, transmit
 *                       0 then 1: the answer; addresses 0 to 33
 *   bits ADDRESS SUM    for status 0 to 519, error 0 then 1, failure 0 then 1
 *   judge ADDRESS SUM REFUSED ERROR EXCEPTION CLEAN
 *                       for image 0 to 131,075: 11 refused, 2 error,
 *                       1 exception, 0 clean; then how many of each
 */
#ifndef SECOND_WORDSUMS_H
#define SECOND_WORDSUMS_H

/* Answers 0, or -1 if writing failed. */
int wordsums_print(void);

#endif

/*
 * Every bus word and every image, answer by answer: what the two example programs of ../host/words print with --all.
 * Fields are parted by tabs; an answer is the word, or -11 for refusal 11.
 *
 * The terminal's side, with each field in and out of its size:
 *
 *   image WORD IMAGE                              for word 0 to 65,535
 *   command ADDRESS TRANSMIT SUB-ADDRESS ANSWERS  for address 0 to 33, transmit 0 to 2, sub-address 0 to 33; the answers
 *                                                 are those to the last field 0 to 34
 *   status ADDRESS ERROR STATUS ANSWERS           for address 0 to 33, error 0 to 2, status 0 to 519; the answers are
 *                                                 those to failure 0 to 2
 *   answers command ACCEPTED REFUSED              how many of each there were
 *   answers status ACCEPTED REFUSED
 *   answers image IMAGES
 *
 * The monitor's side:
 *
 *   fields WORD ADDRESS TRANSMIT SUB-ADDRESS LAST and
 *   bits WORD ADDRESS ERROR STATUS FAILURE        for word 0 to 65,535
 *   judge ADDRESS FIRST VERDICTS                  for address 0 to 33: the images from FIRST on, 4,096 a line up to
 *                                                 131,071, then the four that follow; a verdict is one character, 0 clean,
 *                                                 1 exception, 2 error, x refused by 11
 *   answers judge CLEAN EXCEPTION ERROR REFUSED   how many of each there were
 */
#ifndef SECOND_WORDSALL_H
#define SECOND_WORDSALL_H

/* Each answers 0, or -1 if writing failed. */
int wordsall_terminal(int out);
int wordsall_monitor(int out);

#endif

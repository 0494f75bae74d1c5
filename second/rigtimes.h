/*
 * Reads a rig file from a descriptor, then reads it 1,000 times over, and
 * reads and writes it 1,000 times more, to be measured.  Prints how often the
 * rig was accepted and how often the bytes came back the same.
 */
#ifndef SECOND_RIGTIMES_H
#define SECOND_RIGTIMES_H

/* Answers 0, or -1 if reading or writing failed. */
int rigtimes_print(int in);

#endif

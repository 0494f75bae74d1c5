/*
 * Bus words, question by question.  Each line of the input is a verb and what
 * is asked, parted by tabs; what follows those fields is passed over, so that
 * the lines that another program printed with its answers are questions too.
 * Each is printed with this program's answer behind it:
 *
 *   command  address transmit sub-address words     number [word]
 *   fields   word                                   address transmit sub-address words
 *   status   address error status failure           number [word image]
 *   bits     word                                   address error status failure
 *   parity   word                                   parity
 *   image    word                                   image
 *   judge    image address                          number [verdict]
 *
 * The number is 0 if accepted; only then the fields in brackets follow.  A
 * verdict is error, exception or clean.  A line that is no question, has no
 * LF or more than 65,535 bytes before it, is answered by ? alone.
 */
#ifndef SECOND_WORDLIST_H
#define SECOND_WORDLIST_H

/* Answers 0, or -1 if reading or writing failed. */
int wordlist_print(int in, int out);

#endif

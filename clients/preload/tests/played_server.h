/* A process that answers at a socket as a test wants it, and writes down what it is sent. */
#ifndef PLAYED_SERVER_H
#define PLAYED_SERVER_H

#include <signal.h>

enum { LINE = 160 };

void play_server(const char *path);         /* starts it, and waits until it listens */
void end_server(void);

/* The next line is answered by this word: that of an answer, or `in pieces` (an answer 0 that comes
 * byte by byte), `wrong number` or `close`. All others are answered 0. */
void answer_next(const char *word);

int line_count(void);
int end_count(void);                        /* how many connections have ended */
const char *latest_line(void);
const char *line_before(int count);         /* so many lines before the latest */
void latest_name(char name[LINE]);          /* of the latest line, its second word */
int is_line(const char *line, const char *pattern);     /* NAME in it is any good name */

#endif

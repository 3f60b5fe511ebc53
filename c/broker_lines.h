/* Files that are read once, at the start, line by line. */
#ifndef BROKER_LINES_H
#define BROKER_LINES_H

/* Hands each line of a file on, but for those that are empty or begin with #. Ends the program where the file can't be read, or a line has
   a zero byte. */
void each_line(const char *file, void (*take)(char *line));

/* Says why the line that was handed on isn't taken, and ends the program. */
_Noreturn void refuse_line(const char *why);

#endif

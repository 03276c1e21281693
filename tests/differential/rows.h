#ifndef ROWS_H
#define ROWS_H

/* The rows that the scope itself lists, asked of the library. */
void check_rows(void);

#endif

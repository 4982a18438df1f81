/* The loop, and what it writes with: the board's serial line, or standard output at the desk. */
#ifndef STATION_H
#define STATION_H

int station(void);
void put_text(const char *text);

#endif

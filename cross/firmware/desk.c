/* The same loop at a desk. */
#include "station.h"
#include <stdio.h>

void put_text(const char *text) { fputs(text, stdout); }

int main(void) { return station(); }

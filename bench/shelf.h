// A shelf of real figures.
#ifndef SHELF_H
#define SHELF_H

#include <stddef.h>
#include <stdint.h>

// Records, each greater than the one before.
struct shelf {
    uint8_t *file;
    size_t places;
};

// So many records, of figures that shelf_figures.c lists. Ends the program if it has not as many.
void make_shelf(struct shelf *shelf, size_t places);

// The rows of its rescue (rescue.c), after which it is damaged. Behind it, and in the buffer behind its length, there is room for a place.
void rescue_rows(const struct shelf *shelf, uint8_t *out);

#endif

#ifndef SEVEN
#define SEVEN (7) /* the answer */
#endif
#define THREE 3

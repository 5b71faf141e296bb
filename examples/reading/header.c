// Reads a header, and has a main of the first form.
#include "numbers.h"
#define FOUR 4

int main(void)
/*@
  requires true;
  ensures result == 7;
@*/
{
  int x = THREE; /* a macro of the header */
  x = x + FOUR;
  return x;
}

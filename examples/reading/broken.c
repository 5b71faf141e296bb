#include "broken.h"
int main()
//@ requires true;
//@ ensures true;
{ return 0; }

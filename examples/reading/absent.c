#include "no.h"
int main() //@ requires true; ensures true;
{ return 0; }

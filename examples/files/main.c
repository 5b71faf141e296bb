#include "stack.h"
#include "sum.h"
#include "vf_output.h"

int main()
//@ requires true;
//@ ensures true;
{
  struct stack *stack = create();
  put(stack, 3);
  put(stack, sum(3, 4));
  print_int(take(stack));
  print_int(take(stack));
  dispose(stack);
  return 0;
}

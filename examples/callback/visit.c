#include "vf_output.h"

typedef void visitor(int value);
//@ requires 0 <= value;
//@ ensures true;

void show(int value) //@ : visitor
//@ requires 0 <= value;
//@ ensures true;
{
  print_int(value);
}

void show_twice(int value) //@ : visitor
//@ requires 0 <= value;
//@ ensures true;
{
  show(value);
  show(value);
}

void visit_below(int end, visitor *visit)
//@ requires 0 <= end &*& is_visitor(visit) == true;
//@ ensures true;
{
  int i = 0;
  while (i < end)
  //@ invariant 0 <= i &*& i <= end;
  {
    visit(i);
    i = i + 1;
  }
}

int main()
//@ requires true;
//@ ensures true;
{
  visit_below(3, show);
  visit_below(1, show_twice);
  return 0;
}

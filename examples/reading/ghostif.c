int main()
//@ requires true;
//@ ensures result == 7;
{
  int x = 3;
  if (x == 3)
  //@ assert true;
  x = x + 4;
  return x;
}

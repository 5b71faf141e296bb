int main()
//@ requires true;
//@ ensures true;
{
  int x = 2147483647;
  x = x + 1;
  return 0;
}

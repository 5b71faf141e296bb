int main()
//@ requires true;
//@ ensures result == 8;
{
  int x = 3;
  x = x + 4;
  return x;
}

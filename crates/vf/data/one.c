int main()
//@ requires true;
//@ ensures result == 7;
{
  int x = 3;
  x = x + 4;
  return x;
}

#include <stdlib.h>
#include "threading.h"
#include "vf_output.h"

struct account { int balance; };

void deposit(void *data) //@ : thread_run_joinable
//@ requires thread_run_pre(deposit)(data, ?info);
//@ ensures thread_run_post(deposit)(data, info);
{
  struct account *account = data;
  int before = account->balance;
  account->balance = before + 10;
}

int main()
//@ requires true;
//@ ensures true;
{
  struct account *account = malloc(sizeof(struct account));
  if (account == 0) { abort(); }
  account->balance = 0;
  struct thread *first = thread_start_joinable(deposit, account);
  struct thread *second = thread_start_joinable(deposit, account);
  thread_join(first);
  thread_join(second);
  print_int(account->balance);
  free(account);
  return 0;
}

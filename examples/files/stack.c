#include <stdlib.h>
#include "stack.h"

struct entry { int value; struct entry *below; };
struct stack { struct entry *top; };

/*@
predicate entries(struct entry *entry, int count) =
  entry == 0 ? count == 0 : entry->value |-> ?value &*& entry->below |-> ?below &*& malloc_block_entry(entry)
    &*& entries(below, count - 1) &*& 0 < count;
predicate stack(struct stack *stack, int count) =
  stack->top |-> ?top &*& malloc_block_stack(stack) &*& entries(top, count) &*& 0 <= count;
@*/

struct stack *create()
{
  struct stack *stack = malloc(sizeof(struct stack));
  if (stack == 0) { abort(); }
  stack->top = 0;
  //@ close entries(0, 0);
  //@ close stack(stack, 0);
  return stack;
}

void put(struct stack *stack, int value)
{
  //@ open stack(stack, count);
  struct entry *entry = malloc(sizeof(struct entry));
  if (entry == 0) { abort(); }
  entry->value = value;
  entry->below = stack->top;
  stack->top = entry;
  //@ close entries(entry, count + 1);
  //@ close stack(stack, count + 1);
}

int take(struct stack *stack)
{
  //@ open stack(stack, count);
  struct entry *entry = stack->top;
  //@ open entries(entry, count);
  int value = entry->value;
  stack->top = entry->below;
  free(entry);
  //@ close stack(stack, count - 1);
  return value;
}

void dispose(struct stack *stack)
{
  //@ open stack(stack, 0);
  //@ open entries(_, 0);
  free(stack);
}

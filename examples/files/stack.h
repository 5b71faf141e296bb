#ifndef STACK_H
#define STACK_H

struct stack;

//@ predicate stack(struct stack *stack, int count);

struct stack *create();
//@ requires true;
//@ ensures stack(result, 0);

void put(struct stack *stack, int value);
//@ requires stack(stack, ?count);
//@ ensures stack(stack, count + 1);

int take(struct stack *stack);
//@ requires stack(stack, ?count) &*& 0 < count;
//@ ensures stack(stack, count - 1);

void dispose(struct stack *stack);
//@ requires stack(stack, 0);
//@ ensures true;

#endif

#ifndef SUM_H
#define SUM_H

int sum(int first, int second);
//@ requires -1000 <= first &*& first <= 1000 &*& -1000 <= second &*& second <= 1000;
//@ ensures result == first + second;

#endif

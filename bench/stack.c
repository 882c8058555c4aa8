// Runs a job on a stack of its own that is filled with a pattern, and looks how far down the pattern was overwritten.
#include "stack.h"

#include <stdlib.h>
#include <ucontext.h>

enum { STACK_WORDS = 1 << 15 };  // 256 KiB: more than twenty times what a call takes

static uint64_t stack[STACK_WORDS];
static ucontext_t here, there;
static void (*job)(void *);
static void *work;

void *stack_pointer_at_call;

// What stands in word i before the job: another number in each word, so that a call hardly writes the same.
static uint64_t pattern(size_t i) { return (i + 1) * 0x9E3779B97F4A7C15; }

static void start(void) { job(work); }

// Switches to the stack, runs the job and comes back.
static void run_on_stack(void) {
  if (getcontext(&there) != 0) abort();
  there.uc_stack.ss_sp = stack;
  there.uc_stack.ss_size = sizeof stack;
  there.uc_link = &here;
  makecontext(&there, start, 0);
  if (swapcontext(&here, &there) != 0) abort();
}

size_t stack_depth(void (*of)(void *), void *with) {
  size_t lowest = 0;
  job = of, work = with;
  for (size_t i = 0; i < STACK_WORDS; i++) stack[i] = pattern(i);
  run_on_stack();
  while (stack[lowest] == pattern(lowest)) lowest++;
  return (uint8_t *)stack_pointer_at_call - (uint8_t *)(stack + lowest);
}

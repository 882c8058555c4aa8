// How deep the stack is that a call takes.
#ifndef STACK_H
#define STACK_H

#include <stddef.h>
#include <stdint.h>

// The bytes from the stack pointer that the job noted before its calls down to the lowest word that was written: the arguments that
// are on the stack, the return address, and the frames of the call and of all that it calls.
size_t stack_depth(void (*job)(void *work), void *work);

extern void *stack_pointer_at_call;

// Stands right before each call of a job. No push of an argument may be moved before it.
#define NOTE_STACK_POINTER() __asm__ volatile("mov %%rsp, %0" : "=m"(stack_pointer_at_call) : : "memory")

#endif

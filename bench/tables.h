// The tables behind that of the contests.
#ifndef TABLES_H
#define TABLES_H

// How the times of encode, drive and close grow with the number of stores.
void compare_stores(void);  // exits with 1 if one of the stores is not as it should be
void time_stores(void);

// How deep the stack of each call is.
void measure_stacks(void);  // exits with 1 if a call answers wrongly, or if the calls one by one do not leave what drive leaves
void print_stacks(void);

#endif

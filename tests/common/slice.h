/* A slice that is lent: the pointer and the length of an array. */
#ifndef SLICE_H
#define SLICE_H

#define SLICE(array) (array), sizeof(array) / sizeof((array)[0])

#endif

/* What the two drivers of bench/ share: lists from a file, and the requests about them.

   The file holds cases: n and how many lists, in 64-bit numbers of this machine, and then the lists' patterns. Each line of standard input is a request, and one
   line answers it:

       time K R     R repetitions of every sum on case K, one after the other in each repetition: the least time of each, in ns for one list
       once K S     the sum S on every list of case K, once, for a program that counts instructions; no sum where S is below 0
       check K 0    compares all answers on case K, and prints 'ok' and a sum of each list, or what differs

   A repetition goes once through all lists of a case. */
#ifndef REQUESTS_H
#define REQUESTS_H

#include <stddef.h>
#include <stdint.h>

/* One case. */
struct suite {
    size_t n, count;
    void *patterns;
};

/* The bytes of a pattern, the longest list, how many sums there are; what is done before a case and behind it; one sum on the list k; what differs on it, or null;
   and the sum that a check prints of it. */
struct driver {
    size_t pattern, longest, sums;
    void (*begin)(const struct suite *), (*end)(const struct suite *), (*call)(size_t sum, size_t k);
    const char *(*differs)(size_t k);
    uint64_t (*told)(size_t k);
};

void answer_requests(const char *file, const struct driver *d);

#endif

/* Sorts structs of your own by a key.
 *
 * The library takes no comparison function. So the keys go into an array of dheap_entry, each with the index of
 * its struct as the value, and the structs stay where they are. */
#include <dary_heap_c.h>

#include <stdio.h>
#include <stdlib.h>

struct person {
    const char *name;
    int age;
};

int main(void) {
    static const struct person people[] = {{"Ada", 36}, {"Grace", 85}, {"Alan", 41}, {"Edsger", 72}};
    enum { LEN = sizeof people / sizeof *people };
    struct dheap_entry by_age[LEN];
    for (size_t i = 0; i < LEN; i++)
        by_age[i] = (struct dheap_entry){people[i].age, i};
    if (!dheap_max_sort_entry(by_age, LEN, 4)) /* sorted as by a max-heap they ascend */
        return EXIT_FAILURE;
    for (size_t i = 0; i < LEN; i++)
        printf("%s, %d\n", people[by_age[i].value].name, people[by_age[i].value].age);
    return 0;
}

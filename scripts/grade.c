/* Grades a claimed sum of one sheet, for scripts/grade, which hands over the claim and the sheet and says the answer in words.

   Read are the claim's pattern and how many bytes the sheet has, in 64 bits each, and the sheet. Written are the code of the call that refused, or 0, and the
   grade, in 64 bits each. */
#include "kewohiata.h"
#include "pipe.h"

int main(void)
{
    static uint8_t sheet[KEWOHIATA_SHEET_BYTES_MOST + 1];
    static uint64_t list[KEWOHIATA_LIST_MOST];
    uint64_t given[2], answer[2] = {0, 0}, count = 0;
    if (!take(given, sizeof given) || given[1] > sizeof sheet || !take(sheet, (size_t)given[1]))
        return 1;
    answer[0] = kewohiata_sheet_read(sheet, (size_t)given[1], list, KEWOHIATA_LIST_MOST, &count, KEWOHIATA_VALUE);
    if (answer[0] == KEWOHIATA_ACCEPTED)
        answer[0] = kewohiata_list_grade(list, (size_t)count, given[0], &answer[1], KEWOHIATA_VALUE);
    return give(answer, sizeof answer) ? 0 : 1;
}

/* Rescues a damaged sheet, for scripts/rescue, which hands over the bytes and says the report in words.

   Read are how many bytes the damaged sheet has, in 64 bits, and the bytes. Written are the code and the report's four numbers, in 64 bits each, zeros where
   the call refused; then the rescued sheet, and the marks. */
#include "kewohiata.h"
#include "pipe.h"

enum { MOST = 1 << 24 };

int main(void)
{
    static uint8_t damaged[MOST], sheet[KEWOHIATA_SHEET_BYTES_MOST], marks[KEWOHIATA_LIST_MOST];
    uint64_t size, answer[1 + KEWOHIATA_REPORT] = {0};
    const uint64_t *report = answer + 1;
    if (!take(&size, sizeof size) || size > sizeof damaged || !take(damaged, (size_t)size))
        return 1;
    answer[0] = kewohiata_sheet_rescue(damaged, (size_t)size, sheet, sizeof sheet, marks, sizeof marks, answer + 1, KEWOHIATA_REPORT);
    if (!give(answer, sizeof answer) || !give(sheet, (size_t)report[KEWOHIATA_REPORT_WRITTEN]))
        return 1;
    return give(marks, (size_t)report[KEWOHIATA_REPORT_TAKEN]) ? 0 : 1;
}

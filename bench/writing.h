/* What each way of writing offers: how many digits a number has, a number, and a report of 32 lines of mg each. */
#include <stddef.h>
#include <stdint.h>

typedef size_t len_of(uint64_t n);
typedef size_t number_to(uint8_t *out, size_t room, uint64_t n);
typedef size_t report_to(uint8_t *out, size_t room, uint64_t mg, uint64_t total);

len_of before_len, after_len, plain_len;
number_to before_number, after_number, plain_number;
report_to before_report, after_report, plain_report;

/* The writing of numbers and reports in plain C (RULES 7): two digits a division from a table, a report's length worked before its first byte. */
#include <stdint.h>
#include <string.h>
#include "writing.h"

static const char PAIRS[] =
    "00010203040506070809" "10111213141516171819" "20212223242526272829" "30313233343536373839" "40414243444546474849"
    "50515253545556575859" "60616263646566676869" "70717273747576777879" "80818283848586878889" "90919293949596979899";

size_t plain_len(uint64_t n) {
    size_t len = 0;
    for (; n >= 100; n /= 100) len += 2;
    return len + (n < 10 ? 1 : 2);
}

size_t plain_number(uint8_t *out, size_t room, uint64_t n) {
    (void)room;
    size_t len = plain_len(n), at = len;
    for (; n >= 100; n /= 100) { at -= 2; memcpy(out + at, PAIRS + 2 * (n % 100), 2); }
    if (n < 10) out[0] = (uint8_t)('0' + n); else memcpy(out, PAIRS + 2 * n, 2);
    return len;
}

static size_t put(uint8_t *out, const char *text, size_t len) { memcpy(out, text, len); return len; }

/* What came of a line: its milligrams, or the number of its refusal. */
typedef struct { uint8_t kind; uint64_t value; } mark;
enum { MASS, REFUSED };

static size_t line_len(uint64_t i, mark m) {
    return plain_len(i) + 6 + (m.kind == MASS ? plain_len(m.value) : plain_len(m.value & 255));
}

static size_t put_line(uint8_t *out, size_t room, uint64_t i, mark m) {
    size_t at = put(out, "L ", 2);
    at += plain_number(out + at, room - at, i);
    if (m.kind == MASS) {
        at += put(out + at, " M ", 3);
        at += plain_number(out + at, room - at, m.value);
    } else {
        at += put(out + at, " R ", 3);
        at += plain_number(out + at, room - at, m.value & 255);
    }
    return at + put(out + at, "\n", 1);
}

size_t plain_report(uint8_t *out, size_t room, uint64_t mg, uint64_t total) {
    mark marks[32];
    for (int i = 0; i < 32; i++) marks[i] = (mark){ MASS, mg };
    size_t needed = plain_len(total) + 15, at = 0;
    for (int i = 0; i < 32; i++) needed += line_len((uint64_t)i + 1, marks[i]);
    if (needed > room) return 0;
    for (int i = 0; i < 32; i++) at += put_line(out + at, room - at, (uint64_t)i + 1, marks[i]);
    at += put(out + at, "TOTAL ", 6);
    at += plain_number(out + at, room - at, total);
    return at + put(out + at, " COVERED\n", 9);
}

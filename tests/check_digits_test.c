/* Checks numbers with their check digits through line_check_number,
   line_check_branch and line_check_account: the paper's examples, accounts
   worked by hand, the limits of length, digits that are none, and numbers with
   one digit wrong.
   Use: check_digits_test, without arguments. */
#include "line.h"
#include "same.h"

typedef uint8_t check(uint64_t number, uint8_t digit);

/* No digit is due: the number is too long. */
#define NONE (UINT8_MAX + 1)

#define TWO_TO(n) (UINT64_C(1) << (n))

/* Accounts by hand:
   0000123456: 36 + 15 + 28 + 27 + 20 + 5 = 131, which leaves 10 and gives 1;
   0000123458: 48 + 15 + 28 + 27 + 20 + 5 = 143, which leaves 0 and gives 0;
   1234567890: 0 + 27 + 56 + 63 + 60 + 25 + 32 + 12 + 4 + 1 = 280, which leaves
   5 and gives 6; 9999999999: 9 times 55 = 495, which leaves 0 and gives 0. */
static const struct row {
    const char *what;
    check *checked;
    uint64_t number;
    unsigned due;
} rows[] = {
    { "2434157", line_check_number, 2434157, 5 },
    { "9 for 2, which differ by 7", line_check_number, 9434157, 5 },
    { "3 for 2", line_check_number, 3434157, 6 },
    { "number 0", line_check_number, 0, 0 },
    { "the largest number", line_check_number, 9999999, 2 },
    { "8 digits", line_check_number, 10000000, NONE },
    { "2434157 and 2 to the 32nd", line_check_number, 2434157 + TWO_TO(32), NONE },
    { "the largest of 64 bits", line_check_number, UINT64_MAX, NONE },

    { "0072 0101", line_check_branch, 720101, 9 },
    { "0072 0110", line_check_branch, 720110, 1 },
    { "0072 0114, remainder 1 for 10", line_check_branch, 720114, 1 },
    { "0072 101, a zero of the branch left out", line_check_branch, 72101, 9 },
    { "0000 0000", line_check_branch, 0, 0 },
    { "9999 9999", line_check_branch, 99999999, 5 },
    { "9 digits", line_check_branch, 100000000, NONE },
    { "an account as a branch", line_check_branch, 1234567890, NONE },
    { "0072 0101 and 2 to the 32nd", line_check_branch, 720101 + TWO_TO(32), NONE },

    { "0000123456", line_check_account, 123456, 1 },
    { "0000123458", line_check_account, 123458, 0 },
    { "1234567890", line_check_account, 1234567890, 6 },
    { "9999999999", line_check_account, UINT64_C(9999999999), 0 },
    { "0072 0101 as an account", line_check_account, 720101, 9 },
    { "11 digits", line_check_account, UINT64_C(10000000000), NONE },
    { "2 to the 63rd", line_check_account, TWO_TO(63), NONE },
};

/* Of the 256 digits that may be keyed, the one that is due passes alone. */
static void try_digits(const char *what, check *checked, uint64_t number, unsigned due)
{
    unsigned digit;

    for (digit = 0; digit <= UINT8_MAX; digit++)
        same(what, checked(number, (uint8_t)digit), digit == due ? 0 : 43);
}

/* A one at each place and nothing else: its weight taken from 11. At the
   highest place that is 10, which becomes 1; at the weight 10 it is 1 itself. */
static void try_places(void)
{
    static const uint8_t due[] = { 5, 8, 4, 2, 1, 6, 3, 7, 9, 1 };
    uint64_t number = 1;
    unsigned place;

    for (place = 0; place < COUNT(due); place++, number *= 10) {
        try_digits("one digit of an account", line_check_account, number, due[place]);
        if (place < 8)
            try_digits("one digit of a branch", line_check_branch, number, due[place]);
    }
}

int main(void)
{
    size_t i;

    for (i = 0; i < COUNT(rows); i++)
        try_digits(rows[i].what, rows[i].checked, rows[i].number, rows[i].due);
    try_places();
    return counted();
}

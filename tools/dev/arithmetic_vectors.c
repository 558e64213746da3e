// Prints the tables of crates/program_tests/src/operations.rt and changes.rt: what C makes of each operation, change and test of a jump.
//
//     cc -O1 -fsanitize=undefined -fno-sanitize-recover -o /tmp/arithmetic_vectors tools/dev/arithmetic_vectors.c && /tmp/arithmetic_vectors
//
// A line with a table's name is followed by the lines of its text, as they stand there: the assembler's word for the
// operation, the change or the test (the first and the last without their width), the numbers that it is given, and what C
// makes of them (of an operation and of a test at 64 and at 32 bits), all in hexadecimal.
//
// C leaves some cases undefined, and RFC 9669 (section 4.1) defines them; these are written out below: division and
// remainder by 0, the least number by -1, shift counts past the width.
#include <endian.h>
#include <inttypes.h>
#include <stdio.h>

typedef uint64_t u64;
typedef uint32_t u32;
typedef int64_t i64;
typedef int32_t i32;

static const char *OPERATIONS[] = {"add", "sub", "mul", "div", "sdiv", "or", "and", "lsh", "rsh", "mod", "smod", "xor", "arsh"};

static u64 at_64(int operation, u64 a, u64 b) {
    i64 x = (i64)a, y = (i64)b;
    switch (operation) {
    case 0: return a + b;
    case 1: return a - b;
    case 2: return a * b;
    case 3: return b ? a / b : 0;
    case 4: return !y ? 0 : x == INT64_MIN && y == -1 ? a : (u64)(x / y);
    case 5: return a | b;
    case 6: return a & b;
    case 7: return a << (b & 63);
    case 8: return a >> (b & 63);
    case 9: return b ? a % b : a;
    case 10: return !y ? a : y == -1 ? 0 : (u64)(x % y);
    case 11: return a ^ b;
    default: return (u64)(x >> (b & 63));
    }
}

static u64 at_32(int operation, u32 a, u32 b) {
    i32 x = (i32)a, y = (i32)b;
    switch (operation) {
    case 0: return (u32)(a + b);
    case 1: return (u32)(a - b);
    case 2: return (u32)(a * b);
    case 3: return b ? a / b : 0;
    case 4: return !y ? 0 : x == INT32_MIN && y == -1 ? a : (u32)(x / y);
    case 5: return a | b;
    case 6: return a & b;
    case 7: return (u32)(a << (b & 31));
    case 8: return a >> (b & 31);
    case 9: return b ? a % b : a;
    case 10: return !y ? a : y == -1 ? 0 : (u32)(x % y);
    case 11: return a ^ b;
    default: return (u32)(x >> (b & 31));
    }
}

static void operations(void) {
    // ends, signs, a divisor of 0, counts past both widths
    static const u64 PAIRS[][2] = {
        {7, 0}, {0x100000007, 0}, {UINT64_MAX, 1}, {0x8000000000000000, UINT64_MAX}, {0x80000000, 0xffffffff},
        {0xfffffffffffffff9, 2}, {0x123456789abcdef0, 37}, {0xdeadbeefcafebabe, 0x1122334455667788},
    };
    puts("OPERATIONS");
    for (int operation = 0; operation < 13; operation++)
        for (size_t k = 0; k < sizeof PAIRS / sizeof *PAIRS; k++) {
            u64 a = PAIRS[k][0], b = PAIRS[k][1];
            printf("%s %" PRIx64 " %" PRIx64 " %" PRIx64 " %" PRIx64 "\n", OPERATIONS[operation], a, b, at_64(operation, a, b), at_32(operation, (u32)a, (u32)b));
        }
}

static void changes(void) {
    static const u64 NUMBERS[] = {0, 0x80, 0x7f, 0x8000, 0x80000000, 0x1122334455667788, UINT64_MAX};
    puts("CHANGES");
    for (size_t k = 0; k < sizeof NUMBERS / sizeof *NUMBERS; k++) {
        u64 a = NUMBERS[k];
#define ROW(change, want) printf(change " %" PRIx64 " %" PRIx64 "\n", a, (u64)(want))
        ROW("neg64", -a);
        ROW("neg32", (u32)-(u32)a);
        ROW("le16", htole16((uint16_t)a));
        ROW("le32", htole32((u32)a));
        ROW("le64", htole64(a));
        ROW("be16", htobe16((uint16_t)a));
        ROW("be32", htobe32((u32)a));
        ROW("be64", htobe64(a));
        ROW("swap16", __builtin_bswap16((uint16_t)a));
        ROW("swap32", __builtin_bswap32((u32)a));
        ROW("swap64", __builtin_bswap64(a));
        ROW("movsx64.8", (i64)(int8_t)a);
        ROW("movsx64.16", (i64)(int16_t)a);
        ROW("movsx64.32", (i64)(i32)a);
        ROW("movsx32.8", (u32)(i32)(int8_t)a);
        ROW("movsx32.16", (u32)(i32)(int16_t)a);
    }
}

static void tests(void) {
    static const u64 PAIRS[][2] = {{5, 5}, {4, 5}, {5, 4}, {UINT64_MAX, 0}, {0, 0xffffffff80000000}, {0x100000005, 5}, {0x80000000, 1}};
    static const char *NAMES[] = {"jeq", "jne", "jgt", "jge", "jlt", "jle", "jset", "jsgt", "jsge", "jslt", "jsle"};
    puts("TESTS");
    for (int test = 0; test < 11; test++)
        for (size_t k = 0; k < sizeof PAIRS / sizeof *PAIRS; k++) {
            u64 a = PAIRS[k][0], b = PAIRS[k][1];
            i64 x = (i64)a, y = (i64)b;
            u32 c = (u32)a, d = (u32)b;
            i32 z = (i32)c, w = (i32)d;
            int wide[] = {a == b, a != b, a > b, a >= b, a < b, a <= b, (a & b) != 0, x > y, x >= y, x < y, x <= y};
            int narrow[] = {c == d, c != d, c > d, c >= d, c < d, c <= d, (c & d) != 0, z > w, z >= w, z < w, z <= w};
            printf("%s %" PRIx64 " %" PRIx64 " %d %d\n", NAMES[test], a, b, wide[test], narrow[test]);
        }
}

int main(void) {
    operations();
    changes();
    tests();
}

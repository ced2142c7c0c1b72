/* The panel's firmware in small: reads and writes questions by fanwall.h, and ends with status 1 if anything is off. */
#include <stdio.h>
#include <string.h>

#include "fanwall.h"

static int off = 0;

static void check(int holds, const char *what)
{
    if (!holds) {
        printf("OFF: %s\n", what);
        off = 1;
    }
}

static void print_bytes(const char *what, const uint8_t *bytes, size_t length)
{
    printf("%s:", what);
    for (size_t i = 0; i < length; i++)
        printf(" %02X", (unsigned)bytes[i]);
    printf("\n");
}

static void print_fields(const struct fanwall_fields *f)
{
    printf("  address %u command %02X mask %02X %02X %02X %02X %02X %02X\n", (unsigned)f->address, (unsigned)f->command,
           (unsigned)f->serial[0], (unsigned)f->serial[1], (unsigned)f->serial[2], (unsigned)f->serial[3],
           (unsigned)f->serial[4], (unsigned)f->serial[5]);
    printf("  subfunction %04X register %04X value %04X size %u code %u data %u bytes at %u\n", (unsigned)f->subfunction,
           (unsigned)f->register_no, (unsigned)f->value, (unsigned)f->size, (unsigned)f->code, (unsigned)f->data_len,
           (unsigned)f->data_at);
}

/* Puts the checksum behind the first n bytes. */
static size_t seal(uint8_t *bytes, size_t n)
{
    uint16_t sum = fanwall_checksum(bytes, n);
    bytes[n] = (uint8_t)(sum & 0xFF);
    bytes[n + 1] = (uint8_t)(sum >> 8);
    return n + 2;
}

static void checksums(void)
{
    const uint8_t two[] = { 0x02, 0x07 };
    const uint8_t digits[] = { '1', '2', '3', '4', '5', '6', '7', '8', '9' };
    uint16_t sum = fanwall_checksum(two, sizeof two);
    printf("checksum of 02 07: %02X %02X\n", (unsigned)(sum & 0xFF), (unsigned)(sum >> 8));
    check(sum == 0x1241, "the checksum of 02 07 is 41 12");
    sum = fanwall_checksum(digits, sizeof digits);
    printf("checksum of the nine digits: %04X\n", (unsigned)sum);
    check(sum == 0x4B37, "the checksum of the nine digits is 4B37");
    sum = fanwall_checksum(two, 0);
    printf("checksum of nothing: %04X\n", (unsigned)sum);
    check(sum == 0xFFFF, "the checksum of nothing is FFFF");
}

static void reading(void)
{
    /* 50: mask, register D001, two registers, four bytes */
    uint8_t bytes[FANWALL_LONGEST] = { 0x00, 0x50, 0x41, 0x00, 0x00, 0x00, 0x00, 0x43, 0xD0, 0x01,
                                       0x00, 0x02, 0x04, 0xAA, 0xBB, 0xCC, 0xDD };
    size_t n = seal(bytes, 17);
    struct fanwall_fields f, before;
    memset(&f, 0xEE, sizeof f);
    uint8_t r = fanwall_read_question(bytes, n, &f);
    print_bytes("read", bytes, n);
    printf("  result %u\n", (unsigned)r);
    print_fields(&f);
    check(r == FANWALL_OK, "a good question is read");
    check(f.address == 0 && f.command == 0x50 && memcmp(f.serial, bytes + 2, 6) == 0, "address, command and mask");
    check(f.register_no == 0xD001 && f.value == 2 && f.size == 4, "register, count and byte count");
    check(f.subfunction == 0 && f.code == 0, "fields that the form lacks are 0");
    check(f.data_at == 13 && f.data_len == 4 && bytes[f.data_at] == 0xAA, "the data lies in the caller's bytes");

    /* a bit turned over on the line */
    before = f;
    bytes[9] ^= 0x10;
    r = fanwall_read_question(bytes, n, &f);
    printf("read with a bit turned over: result %u\n", (unsigned)r);
    check(r == FANWALL_CHECKSUM, "a broken question is refused with 2");
    check(memcmp(&f, &before, sizeof f) == 0, "a refusal leaves the fields as they were");

    /* the other refusals, and a question without data */
    r = fanwall_read_question(bytes, 3, &f);
    printf("read 3 bytes: result %u\n", (unsigned)r);
    check(r == FANWALL_LENGTH, "3 bytes are refused with 1");
    uint8_t unknown[FANWALL_LONGEST] = { 0x01, 0x07 };
    r = fanwall_read_question(unknown, seal(unknown, 2), &f);
    printf("read command 07: result %u\n", (unsigned)r);
    check(r == FANWALL_COMMAND, "an unknown command is refused with 3");
    uint8_t probe[FANWALL_LONGEST] = { 0x09, 0x03, 0xD1, 0x00, 0x00, 0x01, 0x00 };
    r = fanwall_read_question(probe, seal(probe, 7), &f);
    printf("read a 03 with a byte too many: result %u\n", (unsigned)r);
    check(r == FANWALL_FORM_LENGTH, "a length that does not fit is refused with 4");
    check(memcmp(&f, &before, sizeof f) == 0, "a refusal leaves the fields as they were");
    n = seal(probe, 6);
    r = fanwall_read_question(probe, n, &f);
    print_bytes("read", probe, n);
    printf("  result %u\n", (unsigned)r);
    print_fields(&f);
    check(r == FANWALL_OK && f.register_no == 0xD100 && f.value == 1, "a probe is read");
    check(f.data_at == 0 && f.data_len == 0, "without data both are 0");
}

static void writing(void)
{
    const uint8_t data[] = { 0x12, 0x34 };
    struct fanwall_fields f, back;
    memset(&f, 0, sizeof f);
    f.address = 0x11;
    f.command = 0x10;
    f.register_no = 0xD001;
    f.value = 1;
    f.size = 2;
    f.subfunction = 0x7777; /* 10 has none: passed over */
    f.data_at = 99;         /* passed over */
    f.data_len = 99;        /* passed over */
    uint8_t buffer[FANWALL_LONGEST + 2];
    size_t written = 77;
    memset(buffer, 0xEE, sizeof buffer);
    uint8_t r = fanwall_write_question(&f, data, sizeof data, buffer, sizeof buffer, &written);
    printf("write: result %u, %u bytes\n", (unsigned)r, (unsigned)written);
    print_bytes("written", buffer, sizeof buffer);
    check(r == FANWALL_OK && written == 11, "a question of 11 bytes is written");
    const uint8_t front[] = { 0x11, 0x10, 0xD0, 0x01, 0x00, 0x01, 0x02, 0x12, 0x34 };
    check(memcmp(buffer, front, sizeof front) == 0, "the fields stand in their order");
    int kept = 1;
    for (size_t i = 11; i < sizeof buffer; i++)
        kept = kept && buffer[i] == 0xEE;
    check(kept, "later bytes stay");
    r = fanwall_read_question(buffer, 11, &back);
    check(r == FANWALL_OK && back.value == 1 && back.size == 2 && back.subfunction == 0, "it reads as its fields");
    check(back.data_at == 7 && back.data_len == 2 && memcmp(buffer + 7, data, 2) == 0, "and as its data");

    uint8_t small[FANWALL_LONGEST];
    memset(small, 0xEE, sizeof small);
    written = 77;
    r = fanwall_write_question(&f, data, sizeof data, small, 22, &written);
    printf("write into 22 bytes: result %u, count %u\n", (unsigned)r, (unsigned)written);
    check(r == FANWALL_BUFFER && written == 77, "a short buffer is refused with 15, and the count stays");
    kept = 1;
    for (size_t i = 0; i < sizeof small; i++)
        kept = kept && small[i] == 0xEE;
    check(kept, "a refusal leaves the buffer as it was");

    uint8_t much[15] = { 0 };
    r = fanwall_write_question(&f, much, sizeof much, buffer, sizeof buffer, &written);
    printf("write 15 bytes of data: result %u\n", (unsigned)r);
    check(r == FANWALL_LENGTH && written == 77, "24 bytes are refused with 1");
    r = fanwall_write_question(&f, much, 14, small, sizeof small, &written);
    printf("write 14 bytes of data: result %u, %u bytes\n", (unsigned)r, (unsigned)written);
    check(r == FANWALL_OK && written == 23, "23 bytes are written");
    f.command = 0x07;
    r = fanwall_write_question(&f, data, sizeof data, buffer, sizeof buffer, &written);
    printf("write command 07: result %u\n", (unsigned)r);
    check(r == FANWALL_COMMAND, "an unknown command is refused with 3");
    f.command = 0x08;
    r = fanwall_write_question(&f, data, 0, buffer, sizeof buffer, &written);
    printf("write 08 without data: result %u\n", (unsigned)r);
    check(r == FANWALL_FORM_LENGTH, "08 without data is refused with 4");
}

int main(void)
{
    checksums();
    reading();
    writing();
    printf(off ? "something is off\n" : "all as it should be\n");
    return off;
}

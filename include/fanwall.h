/*
 * fanwall.h - the telegrams of a wall of fans, for the firmware of the panel.
 *
 * Link with libpanel_c.a, which `rt lib` in crates/panel_c makes. Nothing here
 * allocates memory, keeps anything between two calls, or stops the program. Of
 * what lies outside, the library needs memmove alone.
 *
 * What each function owes its caller is proved. What the caller owes, and no
 * proof can see:
 *   - no pointer is NULL, not even one with the length 0;
 *   - `bytes`, `data` and `buffer` have as many bytes as the length after
 *     them says, and these can be read (and `buffer` can be written);
 *   - what a call writes (`fields` of a reading; `buffer` and `written` of a
 *     writing) overlaps nothing else that the same call is passed.
 *
 * A length of 4 to 23 bytes is that of the whole telegram: address, command,
 * the fields of the command's form, and the checksum, low byte first. Fields
 * of two bytes have the high byte first on the line; here they are numbers.
 *
 *   command          the fields of a question, in their order        length
 *   03, 04           register, value (the count)                     8
 *   06               register, value                                 8
 *   08               subfunction, data                               7 to 23
 *   10               register, value (the count), size, data         9 to 23
 *   43, 44           serial (the mask), register, value (the count)  14
 *   46               serial (the mask), register, value              14
 *   50               serial (the mask), register, value (the count),
 *                    size, data                                      15 to 23
 */
#ifndef FANWALL_H
#define FANWALL_H

#include <stddef.h>
#include <stdint.h>

#ifdef __cplusplus
extern "C" {
#endif

/* The longest telegram, and the least room that a writing takes. */
#define FANWALL_LONGEST 23

/* What a reading or a writing returns: the first question that failed. */
enum fanwall_refusal {
    FANWALL_OK = 0,
    FANWALL_LENGTH = 1,      /* it has not 4 to 23 bytes */
    FANWALL_CHECKSUM = 2,    /* the checksum is wrong */
    FANWALL_COMMAND = 3,     /* the command is not known */
    FANWALL_FORM_LENGTH = 4, /* the length does not fit the command's form */
    FANWALL_BUFFER = 15      /* the buffer has not 23 bytes */
};

/*
 * The fields of a question. A form has some of them. The others are 0 after a
 * reading; a writing passes over them, whatever they hold.
 */
struct fanwall_fields {
    uint8_t address;
    uint8_t command;
    uint8_t serial[6];    /* the mask: a byte 0 fits any byte of a serial */
    uint16_t subfunction;
    uint16_t register_no;
    uint16_t value;       /* the value of 06 and 46, else the count */
    uint8_t size;         /* the byte count, as it stands in the telegram */
    uint8_t code;         /* no question has one: 0 after a reading */
    /*
     * Where the data lies in the bytes that were read, in place of a copy:
     * bytes[data_at] up to bytes[data_at + data_len - 1]. Where there is no
     * data, both are 0. A writing passes over both.
     */
    uint8_t data_at;
    uint8_t data_len;
};

/*
 * The checksum of the bytes: CRC-16/Modbus, start FFFF, reflected polynomial
 * A001. Of 02 07 it is 1241, on the line 41 12. Of no bytes it is FFFF.
 */
uint16_t fanwall_checksum(const uint8_t *bytes, size_t length);

/*
 * Reads a question. FANWALL_OK: `fields` has its fields, all of them set.
 * Else one of 1, 2, 3, 4, the first that fails in this order, and `fields`
 * stays as it was.
 */
uint8_t fanwall_read_question(const uint8_t *bytes, size_t length,
                              struct fanwall_fields *fields);

/*
 * Writes a question made of the fields and of `data`, if the form has data;
 * `data_length` is its length (where the form has none, `data` is passed
 * over). FANWALL_OK: the first *written bytes of the buffer are the telegram,
 * with its checksum, and the later bytes stay as they were.
 * Else the first that fails in this order, and `buffer` and *written stay as
 * they were: 3; then, of the telegram to be made, 1 and 4; then 15, where
 * `room`, the length of the buffer, is under 23, however short the telegram.
 * fields->data_at and fields->data_len play no part.
 */
uint8_t fanwall_write_question(const struct fanwall_fields *fields,
                               const uint8_t *data, size_t data_length,
                               uint8_t *buffer, size_t room, size_t *written);

#ifdef __cplusplus
}
#endif

#endif

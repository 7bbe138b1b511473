/* Certificates over lambda-C tables, the bench beside them, tables trimmed by their certificates, the path that a
 * secret takes, and the bill of an order, as a static library (rt lib in crates/capi writes crates/capi/out/libcapi.a).
 *
 * A call reads its table with what is given beside it, or its sizes, and writes to the buffers that it is lent; no two
 * of the buffers may overlap, and no pointer may be null, not even that of a buffer of length 0. Lengths count
 * elements: bytes, 16-bit numbers of scratch and of variables, 32-bit numbers of values, sizes and shares. Buffers may
 * hold anything at entry, and may be longer than what is asked for; what lies past that is unchanged. A call keeps
 * nothing, so that threads may call at once on buffers of their own.
 *
 * Every input gets an answer: bad input is refused with a ground and a place (tools/table/README.md lists them), and no
 * output byte is then changed. The scratch is unchanged on grounds 1 to 10; on ground 11 the first numbers of the asked
 * part are the loop and the rest are 0; else that part is 0. */
#ifndef LAMBDAC_H
#define LAMBDAC_H

#include <stddef.h>
#include <stdint.h>

#ifdef __cplusplus
extern "C" {
#endif

/* Certifies a table of 16-byte records (tools/table/README.md has their bytes, and those of a stimulus). Asks for 8
 * bytes of certificate and two 16-bit numbers of scratch a record.
 * Byte 0 of a variable's 8 bytes is 1 always, 2 open, 3 marked; bytes 1 to 3 are 0; bytes 4 to 7 are the number of an
 * always, little-endian, else 0. An input that is fixed to 0 is always 0, one that is fixed to another number open. An
 * and with an operand that is always 0 is always 0, whatever the other operand is; so are both shifts of an A that is
 * always 0, and less with a B that is.
 * Returns the number of rounds where the table is accepted, else ground * 2^32 + place; every ground is at least 1, so
 * a number below 2^32 says that the table was accepted. For ground 11 the place is the length of the loop that stands
 * at the front of the scratch. */
uint64_t lambdac_certify(const uint8_t *table, size_t table_len, uint8_t *certificate, size_t certificate_len,
                         uint16_t *scratch, size_t scratch_len);

/* Runs a list of 8-byte stimuli on a table of 16-byte records, from power-on, where a register holds its power-on value
 * and every input 0; a fixed one holds 0 until its own number, which alone is accepted, is poked into it. Asks for one
 * 32-bit number of values and four 16-bit numbers of scratch a record. Returns 0 where the table and the list are
 * accepted, and number i of the values is then what variable i holds after the last stimulus; else ground * 2^32 +
 * place. The list is read whole before anything acts: a refused one changes no value. For ground 11 the place is the
 * length of the loop that stands at the front of the scratch. */
uint64_t lambdac_bench(const uint8_t *table, size_t table_len, const uint8_t *stimuli, size_t stimuli_len,
                       uint32_t *values, size_t values_len, uint16_t *scratch, size_t scratch_len);

/* Trims a table of 16-byte records by a certificate, 8 bytes a record as lambdac_certify writes, and a list of kept
 * variables, which may be empty, repeat a variable and name inputs. Wires and registers that the certificate calls
 * always become constants of the same width; then wires and registers that are neither kept nor reached from a kept
 * variable through uses, in any number of steps, are dropped, and all inputs remain. What remains keeps its order and
 * is numbered anew. Asks for as many bytes of trimmed as the table has, and one 16-bit number of numbers and four of
 * scratch a record. Returns how many records are written to the front of trimmed, number j of the numbers then being
 * the variable of the table that record j was; what lies past them in both is unchanged. Else ground * 2^32 + place:
 * after grounds 1, 2 and 4 to 11 (3 is not tried) 20 for the first kept number with no record, its place its index in
 * the list (told as 2^32 - 1 where it needs more than 32 bits), then 21 at place 0 for too little trimmed or numbers,
 * then 22 at place 0 for a certificate that is not 8 bytes a record, and at the first variable whose byte 0 is none of
 * 1 to 3, or is 1 with a number that does not fit its width.
 * The caller vouches that the certificate is the table's own; 22 lets that pass. Then, after a list of stimuli that
 * lambdac_bench accepts on the table, and after that list with its pokes renumbered on the trimmed one, every variable
 * that remains holds the same value, and the trimmed table's own certificate has the same 8 bytes for it. With any
 * certificate that ground 22 lets pass the trimmed table meets none of grounds 1, 2 and 5 to 11. Bytes 1 to 3 of a
 * variable, and the number of one that is not always, are not read. */
uint64_t lambdac_trim(const uint8_t *table, size_t table_len, const uint8_t *certificate, size_t certificate_len,
                      const uint16_t *kept, size_t kept_len, uint8_t *trimmed, size_t trimmed_len, uint16_t *numbers,
                      size_t numbers_len, uint16_t *scratch, size_t scratch_len);

/* Shows how a secret reaches a marked variable of a table of 16-byte records: the shortest row of marked variables from
 * it to a secret input, both in the row, each a use of the one before; a secret input's own row is itself. It certifies
 * the table itself. A record uses what it names, the data and the enable of a register among them, but for a
 * multiplexer whose control is always a number: the arm that it passes over is not a use. Every other such row has at
 * least as many variables; of equals it is the one with the lowest number where they first differ. Every marked
 * variable has one. Asks for one 16-bit number of row and eight of scratch a record. Returns the row's length, at least
 * 1, where the table and the variable are accepted, and the first numbers of row are then the row; what lies past them
 * is unchanged. Else ground * 2^32 + place: after grounds 1 to 11, 23 for a variable that is not marked or not in the
 * table, its place the number given. A refusal changes no number of row. For ground 11 the place is the length of the
 * loop that stands at the front of the scratch. */
uint64_t lambdac_path(const uint8_t *table, size_t table_len, uint32_t variable, uint16_t *row, size_t row_len,
                      uint16_t *scratch, size_t scratch_len);

/* Bills an order of sizes, each the number of a table's records that are no inputs: of the connections of the whole
 * order the first 100 cost 40 cents each, the next 100 cost 30, all further ones 20. Asks for one 32-bit number of
 * shares a size. Returns the bill in cents where the order is accepted (0 for no sizes), and number i of the shares is
 * then the bill up to and with size i less the bill before it, so that they add up to the bill; else ground * 2^32 +
 * place: 3 where there are fewer shares than sizes, then 18 for more than 64 sizes, both at place 0, then 19 for the
 * first size above 4,096, its place that size's index. A refused order changes no share. The bill is the same for every
 * order of the sizes, and below 2^32. */
uint64_t lambdac_bill(const uint32_t *sizes, size_t sizes_len, uint32_t *shares, size_t shares_len);

#ifdef __cplusplus
}
#endif

#endif

/* Korsepal: the null-report module, as a static library (libkorsepal.a, which bindings/archive writes).
 *
 * Every function takes any input, ends, and touches nothing but the memory that it is lent. A slice is two arguments, a
 * pointer and a count. Nothing is allocated and nothing is kept.
 * "Document 01" is the customer's requirements, "document 02" their later requests; the numbers are those of document 01's
 * "Numbers returned". A number that is not named for an answer is 0.
 *
 * A report and a walk are had in one of two models, which the caller chooses. Document 01's model gives up at an instruction
 * that it does not list: korsepal_report, korsepal_walk. The full model walks on through arithmetic, conversions, comparisons,
 * stores to arrays and fields, dup_x1 to dup2_x2, monitors and multianewarray (document 02, request 1), and through loads,
 * stores and iinc behind wide (request 7), so it names a null more often: korsepal_report_full, korsepal_walk_full, with the
 * same arguments and results. It too gives up at branches, invokedynamic, wide before any other instruction, and an array of no
 * dimension.
 *
 * A report is in one of two wordings (document 02, request 11). The machine loads from byte arrays and from boolean arrays by one
 * instruction, baload, and stores to both by bastore. Wording 1, the text of before, says "byte array" there; wording 2 says
 * "byte/boolean array", and nothing else differs. korsepal_report and korsepal_report_full name no wording and get 2. A caller
 * that compares messages with stored ones, or with those of an earlier archive, names 1: korsepal_report_in names both the model
 * and the wording.
 *
 * Results are structs by value, laid out as C lays them out: numbers of 32 bits at 4-byte places, of 64 bits at 8-byte places,
 * in the order written here. Their sizes stand at the end of this file. */
#ifndef KORSEPAL_H
#define KORSEPAL_H

#include <stddef.h>
#include <stdint.h>

#ifdef __cplusplus
extern "C" {
#endif

/* The report of a case.
 * answer 0: a message stands at the start of the output, the rest of which is unchanged; value is its length; kind is 1
 *           (action) or 2 (action and cause); scan counts the instructions of the code, or those before the first that has no
 *           length, block those that the walk completed
 * answer 1: there is no message
 * answer 2: the case breaks its layout; value is the offset of its first wrong item
 * answer 3: the stack lacks room; value is the index of the instruction after which its height exceeds it
 * answer 4: the output lacks room; value is the length needed, which is that of the wording's own message
 * answer 5: the case has more than 1,048,576 bytes
 * answer 11: there is no such wording; of korsepal_report_in alone
 * Answers are 0 to 5 and 11. On each but 0 the output is unchanged. The stack is all zero after every answer.
 *
 * korsepal_report names nothing: it is in document 01's model and in wording 2. */
typedef struct {
    uint32_t answer;
    uint32_t kind;
    uint32_t scan;
    uint32_t block;
    uint64_t value;
} korsepal_report_result;

korsepal_report_result korsepal_report(const uint8_t *bytes, size_t bytes_count, uint64_t *stack, size_t stack_count,
                                       uint8_t *output, size_t output_count);

/* The same in the full model, and in wording 2. With as much stack and output, a cause that korsepal_report gives is given here
 * in the same words. Answer 3 may come where document 01's model gave up before, at an instruction behind that place. */
korsepal_report_result korsepal_report_full(const uint8_t *bytes, size_t bytes_count, uint64_t *stack, size_t stack_count,
                                            uint8_t *output, size_t output_count);

/* The report in a model and in a wording. full is 0 for document 01's model and any other number for the full one; wording is 1
 * or 2. Any other wording is answered by 11, before the case is looked at, with kind, scan, block and value 0.
 * korsepal_report is korsepal_report_in with 0 and 2, korsepal_report_full with 1 and 2. */
korsepal_report_result korsepal_report_in(uint32_t full, uint32_t wording, const uint8_t *bytes, size_t bytes_count,
                                          uint64_t *stack, size_t stack_count, uint8_t *output, size_t output_count);

/* The length of the instruction at an index.
 * status 0: length is its bytes, the opcode among them; on 1 and 2 length is 0
 * status 1: it is cut; there is no byte at the index, or the instruction would pass the end of the code
 * status 2: the byte is reserved, 202 to 255; no instruction has it as its opcode
 * A caller that tests for 1 to know that there is no length must test for other than 0: what is 2 now was a length of 1. */
typedef struct {
    uint32_t status;
    uint64_t length;
} korsepal_length_result;

korsepal_length_result korsepal_instruction_length(const uint8_t *code, size_t code_count, uint64_t pc);

/* The greatest leader at or below a fault: found 1 and the leader, or 0 where some instruction has no length, be it cut or
 * reserved. scan counts the instructions that were measured. */
typedef struct {
    uint32_t found;
    uint64_t scan;
    uint64_t leader;
} korsepal_leader_result;

korsepal_leader_result korsepal_block_leader(const uint8_t *code, size_t code_count, uint64_t fault);

/* The walk of a block, in the code of a case and with its members.
 * outcome 0: done; the first height cells are the slots, bottom first, the others zero; count instructions were completed
 * outcome 1: failed after count instructions
 * outcome 2: the case breaks its layout at index; 5: it is too long
 * outcome 3: the stack lacks room after the instruction at index
 * On 1 to 5 the stack is all zero. A cell is 0 when opaque, else 1 + 65,536 * load index + local, in both models; the index of
 * a load behind wide is that of wide. The factor was 256 before document 02's request 7, so a caller that decodes cells must
 * change with this archive. */
typedef struct {
    uint32_t outcome;
    uint64_t height;
    uint64_t count;
    uint64_t index;
} korsepal_walk_result;

korsepal_walk_result korsepal_walk(const uint8_t *bytes, size_t bytes_count, uint64_t leader, uint64_t fault, uint64_t *stack,
                                   size_t stack_count);

/* The same in the full model. */
korsepal_walk_result korsepal_walk_full(const uint8_t *bytes, size_t bytes_count, uint64_t leader, uint64_t fault,
                                        uint64_t *stack, size_t stack_count);

/* The name of a local whose load stands at an index: answer 0 with its length, written at the start of the output; or 2, 4
 * and 5 as a report's, with the output unchanged. */
typedef struct {
    uint32_t answer;
    uint64_t value;
} korsepal_name_result;

korsepal_name_result korsepal_local_name(const uint8_t *bytes, size_t bytes_count, uint64_t local, uint64_t load,
                                         uint8_t *output, size_t output_count);

/* The parameters of a method's descriptor as the messages print them: status 0 with their slots and the length written; 1
 * unreadable; 4 with the length needed. On 1 and 4 the output is unchanged. */
typedef struct {
    uint32_t status;
    uint64_t slots;
    uint64_t length;
} korsepal_parameters_result;

korsepal_parameters_result korsepal_parameters(const uint8_t *descriptor, size_t descriptor_count, uint8_t *output,
                                               size_t output_count);

/* The slots of what a method returns, and of a field: status 0 and the slots, or 1 where they can't be read. The return follows the
 * parenthesis that ends the parameters; it can't be read where they can't, where none ends them, and where nothing follows. */
typedef struct {
    uint32_t status;
    uint32_t slots;
} korsepal_slots_result;

korsepal_slots_result korsepal_return_slots(const uint8_t *descriptor, size_t descriptor_count);
korsepal_slots_result korsepal_field_slots(const uint8_t *descriptor, size_t descriptor_count);

/* A descriptor read strictly: refusal 0 and the count of types, or document 01's number of the refusal, 1 to 14. Four numbers
 * a type are written: base letter, dimensions, where the class name starts and its length (0 and 0 without one); a method's
 * return comes last. A refusal leaves the numbers unchanged. */
typedef struct {
    uint32_t refusal;
    uint64_t count;
} korsepal_types_result;

korsepal_types_result korsepal_parse_type(const uint8_t *descriptor, size_t descriptor_count, uint64_t *numbers,
                                          size_t numbers_count);
korsepal_types_result korsepal_parse_method(const uint8_t *descriptor, size_t descriptor_count, uint64_t *numbers,
                                            size_t numbers_count);

#if defined(__STDC_VERSION__) && __STDC_VERSION__ >= 201112L
_Static_assert(sizeof(korsepal_report_result) == 24, "four numbers of 32 bits, one of 64");
_Static_assert(sizeof(korsepal_length_result) == 16, "one of 32, four bytes unused, one of 64");
_Static_assert(sizeof(korsepal_leader_result) == 24, "one of 32, four bytes unused, two of 64");
_Static_assert(sizeof(korsepal_walk_result) == 32, "one of 32, four bytes unused, three of 64");
_Static_assert(sizeof(korsepal_name_result) == 16, "one of 32, four bytes unused, one of 64");
_Static_assert(sizeof(korsepal_parameters_result) == 24, "one of 32, four bytes unused, two of 64");
_Static_assert(sizeof(korsepal_slots_result) == 8, "two of 32");
_Static_assert(sizeof(korsepal_types_result) == 16, "one of 32, four bytes unused, one of 64");
#endif

#ifdef __cplusplus
}
#endif

#endif

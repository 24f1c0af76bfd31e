/* The gateway core's C interface: the calls, the sizes of their buffers, the refusals, the numbers in rows and tables.
   The names are those of the lib.rt of crates/paper, crates/paper_table, crates/paper_query, crates/paper_values and crates/paper_plan
   with GW_ before them, query rules with GW_QUERY_, the tags of coerced values with GW_VALUE_.

   Every call is a pure function of its inputs: no heap, no global state, no system call; it may run in any number of
   threads at once. Buffers must be aligned for their type and must not overlap. A buffer of length 0 may be NULL.
   A length counts elements: bytes of a text, of a name or of a coerced value, 32-bit numbers of any other output. */
#ifndef GATEWAY_H
#define GATEWAY_H

#include <stddef.h>
#include <stdint.h>

#ifdef __cplusplus
extern "C" {
#endif

/* Sizes of a document, and of a variables text, which has its own levels and rows. */
#define GW_MOST_TEXT 16384    /* bytes */
#define GW_MOST_LEVELS 32     /* open braces, brackets and parentheses */
#define GW_MOST_ROWS 2048
#define GW_MOST_FRAGMENTS 64
#define GW_MOST_VARIABLES 64  /* per operation */
#define GW_MOST_WRAPPERS 7    /* marks [ and ! per type reference, a table's too */

/* Sizes of a type table. */
#define GW_MOST_TABLE 32768    /* bytes */
#define GW_MOST_RECORDS 256
#define GW_MOST_MEMBERS 64     /* per record; a directive's arguments are its members */
#define GW_MOST_IMPLEMENTED 64 /* implemented names per object */
#define GW_MOST_ARGUMENTS 16   /* per field */

/* Fixed sizes of the outputs, in 32-bit numbers, of a coerced value in bytes. A longer buffer may be lent; what lies beyond is left alone. */
#define GW_ROW_SIZE 7
#define GW_ROWS_SIZE 14336    /* GW_MOST_ROWS * GW_ROW_SIZE */
#define GW_REPORT_SIZE 8
#define GW_MOST_COERCED 8192  /* bytes of a coerced value */
#define GW_PLAN_SIZE 14338    /* 2 + GW_MOST_BLOCKS + GW_STEP_SIZE * GW_MOST_STEPS */
#define GW_PAIRS_SIZE 1024    /* GW_MOST_PAIRS * GW_PAIR_SIZE */

/* Sizes of a plan and of a walk. */
#define GW_MOST_BLOCKS 2048
#define GW_MOST_STEPS 4096
#define GW_MOST_WALKED 64     /* blocks of one walk */
#define GW_VARIABLES_SIZE 64  /* bytes of the variables of a walk */
#define GW_MOST_PAIRS 512

/* Bytes of stack, more than a call takes (measured, not proved: tests/stack.c). */
#define GW_PARSE_STACK 20480
#define GW_CHECK_TABLE_STACK 24576
#define GW_CHECK_STACK 131072
#define GW_COERCE_VARIABLES_STACK 212992
#define GW_COERCE_ARGUMENTS_STACK 212992
#define GW_PLAN_STACK 245760
#define GW_WALK_STACK 32768

/* What a call answers, which is also report[0]. Shown: report[1], of refusal 9 report[1] to report[5], of 10 report[1] and
   report[2], of 11 report[1] to report[3]. The calls that read a variables text show of 3 to 6 in report[2] whose offset it is
   (GW_INPUT_DOCUMENT or GW_INPUT_VARIABLES). */
#define GW_ACCEPTED 0             /* shown: the count of rows, by the calls that write rows; the bytes of a coerced value; the counts of
                                     blocks and steps of a plan; the count of pairs */
#define GW_REFUSE_BUFFER 1        /* a buffer is shorter than its fixed size; nothing shown */
#define GW_REFUSE_OVER_LENGTH 2   /* an input is over its length; shown: which (GW_INPUT_..) */
#define GW_REFUSE_NO_TOKEN 3      /* bytes that start no token, or bad text in a string or comment; shown: offset of it */
#define GW_REFUSE_NO_GOING 4      /* a token (or the end) with which no document can go on; shown: its offset */
#define GW_REFUSE_TOO_DEEP 5      /* level 33; shown: offset of the opening mark */
#define GW_REFUSE_TOO_MANY_ROWS 6 /* row 2,049; shown: offset of the construct */
#define GW_REFUSE_FRAMING 7       /* a table's house fields are not framed as they must be; shown: the smallest wrong offset */
#define GW_REFUSE_TOO_MANY 8      /* another count over its size; shown: offset of the first over it */
#define GW_REFUSE_SCHEMA 9        /* a table breaks a schema rule; shown: definition, rule, member, part, argument */
#define GW_REFUSE_QUERY 10        /* a document breaks a query rule; shown: row, rule */
#define GW_REFUSE_VALUE 11        /* a value cannot be coerced; shown: text (GW_INPUT_..), row, reason (GW_REASON_..) */
#define GW_REFUSE_NO_OPERATION 12 /* no operation of this name, or no name and not one operation only, or a row that is no
                                     field that the operation reaches; nothing shown */
#define GW_REFUSE_TOO_MANY_STEPS 13 /* a plan over GW_MOST_STEPS steps; nothing shown */
#define GW_REFUSE_WALK 14         /* a walk of no well-formed plan, of a block that it does not have, for what is no object's record, of over
                                     GW_MOST_WALKED blocks, or with fewer than GW_VARIABLES_SIZE variable bytes; nothing shown */
#define GW_REFUSE_TOO_MANY_PAIRS 15 /* a walk that lists over GW_MOST_PAIRS pairs; nothing shown */
#define GW_REFUSE_TOO_LONG 16     /* a coerced value over GW_MOST_COERCED bytes; nothing shown */

#define GW_INPUT_DOCUMENT 0
#define GW_INPUT_VARIABLES 1
#define GW_INPUT_TABLE 2

/* The columns of a row: rows[GW_ROW_SIZE * i + GW_ROW_..]. */
#define GW_ROW_KIND 0
#define GW_ROW_START 1       /* offset of the first token */
#define GW_ROW_END 2         /* one past the last token */
#define GW_ROW_PARENT 3      /* the row that holds this one, or GW_NO_PARENT */
#define GW_ROW_NAME_START 4  /* offset of the name; 0 where there is none */
#define GW_ROW_NAME_LENGTH 5 /* its bytes; 0 where there is none */
#define GW_ROW_EXTRA 6       /* of operations, booleans and type references; else 0 */

#define GW_NO_PARENT 2048

/* The kinds of rows. Rows stand in order of start, so a parent stands before what it holds. */
#define GW_KIND_OPERATION 1           /* extra: GW_EXTRA_QUERY, .. */
#define GW_KIND_FRAGMENT 2
#define GW_KIND_FIELD 3               /* starts at the response key; the name is the field's */
#define GW_KIND_SPREAD 4
#define GW_KIND_INLINE 5
#define GW_KIND_ARGUMENT 6
#define GW_KIND_DIRECTIVE 7           /* name without @ */
#define GW_KIND_VARIABLE_DEFINITION 8 /* name without $ */
#define GW_KIND_TYPE_REFERENCE 9      /* name: the base type; extra: wrappers from outside in, lowest two bits first */
#define GW_KIND_OBJECT_FIELD 10
#define GW_KIND_VARIABLE 20           /* name without $ */
#define GW_KIND_INTEGER 21
#define GW_KIND_FLOAT 22
#define GW_KIND_STRING 23
#define GW_KIND_BOOLEAN 24            /* extra: GW_EXTRA_FALSE or GW_EXTRA_TRUE */
#define GW_KIND_NULL 25
#define GW_KIND_ENUM 26
#define GW_KIND_LIST 27
#define GW_KIND_OBJECT 28

#define GW_EXTRA_QUERY 0
#define GW_EXTRA_MUTATION 1
#define GW_EXTRA_SUBSCRIPTION 2
#define GW_EXTRA_FALSE 0
#define GW_EXTRA_TRUE 1
#define GW_WRAP_LIST 1
#define GW_WRAP_NON_NULL 2
#define GW_WRAP_BASE 4     /* the outermost wrapper is extra % GW_WRAP_BASE, those inside it extra / GW_WRAP_BASE */

/* Reads a document.

   document  read: any bytes, of any length
   rows      lent: at least GW_ROWS_SIZE numbers
   report    lent: at least GW_REPORT_SIZE numbers

   Answers GW_ACCEPTED or a refusal's number. Of several faults the one with the least offset is told, then the one with
   the least number. What the call leaves:

     answer                  report                          rows
     GW_ACCEPTED             0, count of rows, zeros         the rows, then zeros up to GW_ROWS_SIZE
     GW_REFUSE_BUFFER        1, zeros; untouched if it is    untouched
                             itself too short
     GW_REFUSE_OVER_LENGTH   2, GW_INPUT_DOCUMENT, zeros     untouched
     any other               its number, offset, zeros       zeros up to GW_ROWS_SIZE

   Beyond the fixed sizes nothing is written.

     static uint32_t rows[GW_ROWS_SIZE];
     uint32_t report[GW_REPORT_SIZE];
     const uint8_t text[] = "{ machine(id: 4) { tag } }";
     if (gw_parse(text, sizeof text - 1, rows, GW_ROWS_SIZE, report, GW_REPORT_SIZE) == GW_ACCEPTED)
         printf("%u rows, the first of kind %u\n", report[1], rows[GW_ROW_KIND]);
     else
         printf("refusal %u at byte %u\n", report[0], report[1]); */
uint32_t gw_parse(const uint8_t *document, size_t document_len,
                  uint32_t *rows, size_t rows_len,
                  uint32_t *report, size_t report_len);

/* The tags of house fields: a tag byte, two length bytes (high first), content. */
#define GW_TAG_SCALAR 1
#define GW_TAG_OBJECT 2
#define GW_TAG_INTERFACE 3
#define GW_TAG_UNION 4
#define GW_TAG_ENUM 5
#define GW_TAG_INPUT_OBJECT 6
#define GW_TAG_DIRECTIVE 7
#define GW_TAG_ROOTS 8
#define GW_TAG_NAME 16
#define GW_TAG_IMPLEMENTS 17
#define GW_TAG_FIELD 18
#define GW_TAG_ARGUMENT 19       /* an argument, or an input field */
#define GW_TAG_REFERENCE 20
#define GW_TAG_UNION_MEMBER 21
#define GW_TAG_ENUM_VALUE 22
#define GW_TAG_QUERY_ROOT 23
#define GW_TAG_MUTATION_ROOT 24
#define GW_TAG_SUBSCRIPTION_ROOT 25

/* The schema rules. */
#define GW_RULE_RESERVED_NAME 1            /* type or directive name begins __ */
#define GW_RULE_NAME_KNOWN 2               /* name already known or defined before */
#define GW_RULE_NO_MEMBERS 3               /* a type other than a scalar without members */
#define GW_RULE_NAME_REPEATED 4            /* member or argument repeats an earlier name beside it */
#define GW_RULE_RESERVED_MEMBER 5          /* object or interface field, or its argument, begins __ */
#define GW_RULE_ENUM_VALUE 6               /* enum value true, false or null */
#define GW_RULE_NO_TYPE 7                  /* reference to no type */
#define GW_RULE_BASE 8                     /* output where an input type is due, or the other way */
#define GW_RULE_NOT_OBJECT_OR_INTERFACE 9  /* union member not an object, implemented name not an interface */
#define GW_RULE_IMPLEMENTED_TWICE 10
#define GW_RULE_FIELD_MISSING 11           /* of an interface */
#define GW_RULE_FIELD_TYPE 12              /* not a sub-type of the interface's */
#define GW_RULE_ARGUMENT_MISSING 13
#define GW_RULE_ARGUMENT_TYPE 14           /* differs from the interface's */
#define GW_RULE_ARGUMENT_EXTRA 15          /* Non-Null, and not the interface's */
#define GW_RULE_ROOT 16                    /* a root is no object type */

#define GW_NO_PLACE 65535                  /* a member, part or argument that is none */

/* Judges a type table.

   table     read: any bytes, of any length
   report    lent: at least GW_REPORT_SIZE numbers; beyond these nothing is written

   Answers GW_ACCEPTED or the first refusal of 1, 2, 7, 8, 9 that there is. What the call leaves:

     answer                  report
     GW_ACCEPTED             zeros
     GW_REFUSE_BUFFER        untouched
     GW_REFUSE_OVER_LENGTH   2, GW_INPUT_TABLE, zeros
     GW_REFUSE_FRAMING       7, offset, zeros
     GW_REFUSE_TOO_MANY      8, offset, zeros
     GW_REFUSE_SCHEMA        9, definition, rule, member, part, argument, zeros

   Definitions are the records, counted from 0, as are members, parts and arguments. Of several breaks the least is told, by
   these five numbers in order. A directive's members are its arguments, those of the roots' record its roots. An
   implemented name's member is its place among these, also in rules 11 to 15, where part is the interface's field and
   argument is counted in it (15: in the object's). Rule 16 without a record of roots has the number of records.

     uint32_t report[GW_REPORT_SIZE];
     if (gw_check_table(table, table_len, report, GW_REPORT_SIZE) == GW_REFUSE_SCHEMA)
         printf("definition %u breaks rule %u\n", report[1], report[2]); */
uint32_t gw_check_table(const uint8_t *table, size_t table_len, uint32_t *report, size_t report_len);

/* The query rules, each with the row at fault. Of a repeat it is the later one; a name that is repeated means its first. */
#define GW_QUERY_RULE_OPERATION_REPEATED 1 /* an operation's name is repeated; the operation */
#define GW_QUERY_RULE_OPERATION_UNNAMED 2  /* an operation without a name beside another one; the operation */
#define GW_QUERY_RULE_FRAGMENT_REPEATED 3  /* a fragment's name is repeated; the fragment */
#define GW_QUERY_RULE_CONDITION 4          /* a condition is no object, interface or union; its type reference */
#define GW_QUERY_RULE_FIELD 5              /* the enclosing type has no such field; the field */
#define GW_QUERY_RULE_LEAF 6               /* selections in a field of a scalar or enum, or none in another; the field */
#define GW_QUERY_RULE_SPREAD 7             /* no fragment has this name; the spread */
#define GW_QUERY_RULE_CIRCLE 8             /* a fragment spreads itself, directly or through others; the fragment */
#define GW_QUERY_RULE_DIRECTIVE 9          /* a directive other than @skip or @include, on no selection, a second time there, or
                                              without just one argument, an if that is a boolean or a variable; the directive */
#define GW_QUERY_RULE_UNDEFINED 10         /* an operation that reaches a variable does not define it; the variable */
#define GW_QUERY_RULE_VARIABLE_TYPE 11     /* a variable is defined with a type that is no input type: its definition; or with
                                              another type than its place has, but for Non-Null outside: the variable */
#define GW_QUERY_RULE_NAME_TWICE 12        /* an argument or variable name is repeated; the argument, variable definition */
#define GW_QUERY_RULE_NO_ROOT 13           /* the table has no root for this kind of operation; the operation */
#define GW_QUERY_RULE_ARGUMENT 14          /* the field has no such argument; the argument */

/* Judges a type table, and by it a document.

   table     read: any bytes, of any length
   document  read: any bytes, of any length
   rows      lent: at least GW_ROWS_SIZE numbers
   report    lent: at least GW_REPORT_SIZE numbers

   Answers GW_ACCEPTED for a document that breaks none of the fourteen rules by an accepted table, or the first refusal that there
   is: 1, 2, of the table (7, 8, 9, as gw_check_table), of the document's text (3 to 6 and 8, as gw_parse), of its rules (10). Of
   several broken rules the one with the least row is told, then the one with the least number. What the call leaves:

     answer                       report                          rows
     GW_ACCEPTED                  0, count of rows, zeros         the rows, as gw_parse leaves them
     GW_REFUSE_BUFFER             1, zeros; untouched if it is    untouched
                                  itself too short
     GW_REFUSE_OVER_LENGTH        2, GW_INPUT_DOCUMENT or         untouched
                                  GW_INPUT_TABLE, zeros
     GW_REFUSE_QUERY              10, row, rule, zeros            zeros up to GW_ROWS_SIZE
     any other                    as that of gw_check_table or    zeros up to GW_ROWS_SIZE
                                  gw_parse

   Of an 8 the report does not say whose it is: the table's where gw_check_table answers 8 too. Beyond the fixed sizes nothing is
   written. The row of a 10 is that of gw_parse, which still reads the document:

     if (gw_check(table, table_len, text, text_len, rows, GW_ROWS_SIZE, report, GW_REPORT_SIZE) == GW_REFUSE_QUERY) {
         uint32_t row = report[1], rule = report[2];
         gw_parse(text, text_len, rows, GW_ROWS_SIZE, report, GW_REPORT_SIZE);
         printf("rule %u is broken at byte %u\n", rule, rows[GW_ROW_SIZE * row + GW_ROW_START]);
     } */
uint32_t gw_check(const uint8_t *table, size_t table_len,
                  const uint8_t *document, size_t document_len,
                  uint32_t *rows, size_t rows_len,
                  uint32_t *report, size_t report_len);

/* The tags of a coerced value: house fields again, one in another. */
#define GW_VALUE_NULL 32        /* no content */
#define GW_VALUE_INT 33         /* four bytes, high first: a signed number */
#define GW_VALUE_FLOAT 34       /* the text as written, of an integer with .0 behind it */
#define GW_VALUE_STRING 35      /* of a String or ID: its characters in UTF-8, escapes resolved; of an integer its text */
#define GW_VALUE_BOOLEAN 36     /* a byte, 1 for true, 0 for false */
#define GW_VALUE_ENUM 37        /* the enum value's name */
#define GW_VALUE_LIST 38        /* the items, values again */
#define GW_VALUE_OBJECT 39      /* its entries, in the order of their definitions */
#define GW_VALUE_ENTRY 40       /* GW_TAG_NAME, then the value */
#define GW_VALUE_OWN_SCALAR 41  /* the token as written, a string with its quotes and escapes */

/* The reasons of refusal 11, each with the row that is shown. */
#define GW_REASON_KIND 1      /* a token, list or object of another kind than the type takes; the value */
#define GW_REASON_RANGE 2     /* an integer beyond Int (32 bits), or beyond 2^53 where a Float is due; the value */
#define GW_REASON_MISSING 3   /* a Non-Null entry, argument or variable is missing; the object, field or variable definition */
#define GW_REASON_NULL 4      /* null where the type is Non-Null; the null, or the variable that holds it or has no value in a list */
#define GW_REASON_UNKNOWN 5   /* the input object has no such field; the entry */
#define GW_REASON_REPEATED 6  /* an entry's name is repeated; the entry, the later one */
#define GW_REASON_ENUM 7      /* the enum has no such value; the value */
#define GW_REASON_SURROGATE 8 /* a String or ID with an escaped surrogate, \uD800 to \uDFFF; the value */

/* Coerces the variables of an operation by their types: what is given in the variables text, or the default in the document.

   table      read: any bytes, of any length
   document   read: any bytes, of any length
   operation  read: the operation's name, any bytes, of any length; none for the only operation, which may have a name
   variables  read: any bytes, of any length; those of one constant object value, { name: value, .. }, {} for none
   value      lent: at least GW_MOST_COERCED bytes
   report     lent: at least GW_REPORT_SIZE numbers

   Answers GW_ACCEPTED or the first refusal that there is: 1, 2 (of the least input), of table and document (7 to 9, 3 to 6 and 8, 10,
   as gw_check), 12, of the variables text (3 to 6), 11, 16. What the call leaves:

     answer                       report                          value
     GW_ACCEPTED                  0, bytes of the value, zeros    the value, then zeros up to GW_MOST_COERCED
     GW_REFUSE_BUFFER             1, zeros; untouched if it is    untouched
                                  itself too short
     GW_REFUSE_OVER_LENGTH        2, GW_INPUT_.., zeros           untouched
     GW_REFUSE_NO_TOKEN to        its number, offset,             zeros up to GW_MOST_COERCED
     GW_REFUSE_TOO_MANY_ROWS      GW_INPUT_.., zeros
     GW_REFUSE_VALUE              11, GW_INPUT_.., row, reason,   zeros up to GW_MOST_COERCED
                                  zeros
     GW_REFUSE_NO_OPERATION,      its number, zeros               zeros up to GW_MOST_COERCED
     GW_REFUSE_TOO_LONG
     any other                    as that of gw_check             zeros up to GW_MOST_COERCED

   The value is an object with an entry for each variable that has a value or a default, in the order of their definitions. Names
   that the operation does not define are passed over; of a name that is repeated nothing else is told. A default is judged only
   where it is taken. Of several values that cannot be coerced the first by definition order is told, of an object first the entries
   that are repeated, then those that are unknown, then the fields.

   The row of an 11 is that of gw_parse in the document. In the variables text it is counted from 0 over all tokens but } ] and :,
   so that row 0 is the object, 1 the first entry, 2 its value. */
uint32_t gw_coerce_variables(const uint8_t *table, size_t table_len,
                             const uint8_t *document, size_t document_len,
                             const uint8_t *operation, size_t operation_len,
                             const uint8_t *variables, size_t variables_len,
                             uint8_t *value, size_t value_len,
                             uint32_t *report, size_t report_len);

/* Coerces the arguments of a field, after all variables of the operation.

   row        the field's row, as gw_parse and gw_check number it; any number: one that is no field that the operation reaches, itself
              or through spreads, is refused by 12, before the variables text is read
   the others as in gw_coerce_variables

   Answers and leaves what gw_coerce_variables does, but for the value: an object with an entry for each argument that is given, in
   the order of their definitions, and for 16 this alone is measured. A variable that has no value leaves its entry out, in a list it is
   null. What is wrong with a variable's value is told in its own text; a variable that holds null, at a place that is Non-Null, is told
   in the document.

   A worked example, by a table that has type Query { fan(no: Int!, at: [Float]): Int }; the field is row 3 of the document, behind
   operation, variable definition and type:

     static uint8_t value[GW_MOST_COERCED];
     uint32_t report[GW_REPORT_SIZE];
     const uint8_t text[] = "query($no: Int!) { fan(no: $no) }", variables[] = "{ no: -3 }";
     if (gw_coerce_arguments(table, table_len, text, sizeof text - 1, NULL, 0, variables, sizeof variables - 1, 3,
                             value, GW_MOST_COERCED, report, GW_REPORT_SIZE) == GW_ACCEPTED)
         for (const uint8_t *entry = value + 3, *end = value + report[1]; entry < end; entry += 3 + entry[1] * 256 + entry[2]) {
             const uint8_t *name = entry + 3, *held = name + 3 + name[1] * 256 + name[2];
             if (held[0] == GW_VALUE_INT)
                 printf("%.*s is %d\n", name[1] * 256 + name[2], (const char *)name + 3,
                        (int32_t)((uint32_t)held[3] << 24 | held[4] << 16 | held[5] << 8 | held[6]));
         }

   prints "no is -3": the value has the 18 bytes 39 0 15, 40 0 12, 16 0 2 'n' 'o', 33 0 4 255 255 255 253. host/value.h has
   functions that read a value, to copy. With "{ no: 2147483648 }" the answer is 11 and the report 11, 1, 2, 2: in the variables text,
   row 2 (the number), out of range. */
uint32_t gw_coerce_arguments(const uint8_t *table, size_t table_len,
                             const uint8_t *document, size_t document_len,
                             const uint8_t *operation, size_t operation_len,
                             const uint8_t *variables, size_t variables_len,
                             uint32_t row,
                             uint8_t *value, size_t value_len,
                             uint32_t *report, size_t report_len);

/* The numbers of a plan: how many blocks and steps it has, each block's first step, then the steps, three numbers each; unused places
   are 0. A block ends where the next one begins, the last one with the last step.

     plan[GW_PLAN_BLOCKS], plan[GW_PLAN_STEPS]
     plan[GW_PLAN_FIRSTS + b]                             the first step of block b
     plan[GW_PLAN_STEP_0 + GW_STEP_SIZE * s + GW_STEP_..] step s

   A plan may be kept, copied, sent to another machine and walked there: it holds nothing but these numbers. */
#define GW_PLAN_BLOCKS 0
#define GW_PLAN_STEPS 1
#define GW_PLAN_FIRSTS 2
#define GW_PLAN_STEP_0 2050  /* GW_PLAN_FIRSTS + GW_MOST_BLOCKS */
#define GW_STEP_SIZE 3
#define GW_STEP_KIND 0
#define GW_STEP_FIRST 1      /* of a variable, record or fragment its number; of a field the number of its response key */
#define GW_STEP_SECOND 2     /* the step to go to, where it leaves; of a field its row */

/* The kinds of steps. The numbers count from 0 in written order: variables among those that the operation defines, records in the table,
   fragments in the document. The step to go to is counted among all steps of the plan; it is later, and at most the end of the block. */
#define GW_STEP_IF_TRUE 1        /* leave if this variable is true (skip) */
#define GW_STEP_UNLESS_TRUE 2    /* leave unless this variable is true (include) */
#define GW_STEP_UNLESS_APPLIES 3 /* leave unless the object is of this record's type, or one that it can be */
#define GW_STEP_IF_MET 4         /* leave if this fragment was met in this walk, else mark it as met */
#define GW_STEP_LIST 5           /* list this response key with this field */

/* Makes the plan of an operation: what a walk needs of the document, before any variable's value is known.

   table      read: any bytes, of any length
   document   read: any bytes, of any length
   operation  read: the operation's name, any bytes, of any length; none for the only operation, which may have a name
   plan       lent: at least GW_PLAN_SIZE numbers
   report     lent: at least GW_REPORT_SIZE numbers

   Answers GW_ACCEPTED or the first refusal that there is: 1, 2 (of the least input), of table and document (7 to 9, 3 to 6 and 8, 10,
   as gw_check), 12, 13. What the call leaves:

     answer                       report                          plan
     GW_ACCEPTED                  0, blocks, steps, zeros         the plan, unused places up to GW_PLAN_SIZE 0
     GW_REFUSE_BUFFER             1, zeros; untouched if it is    untouched
                                  itself too short
     GW_REFUSE_OVER_LENGTH        2, GW_INPUT_DOCUMENT or         untouched
                                  GW_INPUT_TABLE, zeros
     GW_REFUSE_NO_OPERATION,      its number, zeros               zeros up to GW_PLAN_SIZE
     GW_REFUSE_TOO_MANY_STEPS
     any other                    as that of gw_check             zeros up to GW_PLAN_SIZE

   Block 0 has the operation's selections. Each other block has those of a field, in order of their rows: of each field with selections
   in the operation, or in a fragment that it spreads, directly or not, also where a condition drops it. A spread gives the fragment's
   body as often as it is spread. A response key's number is the least row of a field with this key in the document. */
uint32_t gw_plan(const uint8_t *table, size_t table_len,
                 const uint8_t *document, size_t document_len,
                 const uint8_t *operation, size_t operation_len,
                 uint32_t *plan, size_t plan_len,
                 uint32_t *report, size_t report_len);

/* A pair of a walk: pairs[GW_PAIR_SIZE * i + GW_PAIR_..]. */
#define GW_PAIR_SIZE 2
#define GW_PAIR_KEY 0        /* the number of the response key */
#define GW_PAIR_ROW 1        /* the field's row */

/* Walks blocks of a plan for an object type: lists the response keys and fields of an object, as the draft's CollectFields gives them for
   the merged selection sets of these blocks.

   table      read: any bytes, of any length; the one that the plan was made by
   plan       read: any numbers, of any length; beyond GW_PLAN_SIZE none is read
   object     the number of the object type's record in the table, from 0; any number
   blocks     read: any numbers, of any length: the blocks to walk, in this order, repeats too
   variables  read: any bytes, of any length: of each variable of the operation a byte, in the order of their definitions, 1 for true and
              any other for what is not true, null or absent; beyond GW_VARIABLES_SIZE none is read, and there must be so many
   pairs      lent: at least GW_PAIRS_SIZE numbers
   report     lent: at least GW_REPORT_SIZE numbers

   Answers GW_ACCEPTED or the first refusal that there is: 1, 2, of the table (7, 8, 9, as gw_check_table), 14, 15. What the call leaves:

     answer                       report                          pairs
     GW_ACCEPTED                  0, count of pairs, zeros        the pairs, then zeros up to GW_PAIRS_SIZE
     GW_REFUSE_BUFFER             1, zeros; untouched if it is    untouched
                                  itself too short
     GW_REFUSE_OVER_LENGTH        2, GW_INPUT_TABLE, zeros        untouched
     GW_REFUSE_WALK,              its number, zeros               zeros up to GW_PAIRS_SIZE
     GW_REFUSE_TOO_MANY_PAIRS
     any other                    as that of gw_check_table       zeros up to GW_PAIRS_SIZE

   Pairs of one key stand together, as they were listed; keys stand in the order in which each was first listed. A fragment that was met
   in one block is left in the next. A plan from anywhere does no harm: it is well-formed if it has 1 to GW_MOST_BLOCKS blocks and at most
   GW_MOST_STEPS steps, the first block begins at step 0, no other before the one in front of it or past the count of steps, each kind is
   one of the five, variables and fragments are below 64, records are those of objects, interfaces or unions, keys and rows are below
   GW_MOST_ROWS, and each step that leaves goes to a later one, at most to its block's end; all else is refused by 14.

   A worked loop, which lists the fields of the operation's own object, those of block 0. Its type is record 3 of this table; the rows are
   those of gw_check, of the same document.

     static uint32_t plan[GW_PLAN_SIZE], pairs[GW_PAIRS_SIZE];
     uint32_t report[GW_REPORT_SIZE], blocks[] = {0};
     uint8_t variables[GW_VARIABLES_SIZE] = {0};
     variables[0] = 1; // the first variable that the operation defines is true
     if (gw_plan(table, table_len, text, text_len, NULL, 0, plan, GW_PLAN_SIZE, report, GW_REPORT_SIZE) != GW_ACCEPTED)
         return;
     if (gw_walk(table, table_len, plan, GW_PLAN_SIZE, 3, blocks, 1, variables, GW_VARIABLES_SIZE,
                 pairs, GW_PAIRS_SIZE, report, GW_REPORT_SIZE) == GW_ACCEPTED)
         for (uint32_t i = 0; i < report[1]; i++) {
             uint32_t key = pairs[GW_PAIR_SIZE * i + GW_PAIR_KEY], row = pairs[GW_PAIR_SIZE * i + GW_PAIR_ROW];
             const uint32_t *field = rows + GW_ROW_SIZE * row;
             printf("key %u: %.*s\n", key, (int)field[GW_ROW_NAME_LENGTH], (const char *)text + field[GW_ROW_NAME_START]);
         }

   For each object that comes back under a key, walk the blocks of all fields under this key that have selections, in the order of the
   pairs, with the record of the object's type. The field at a row has block 1 if it is the first one with selections that the operation
   reaches, 2 if it is the next one, and so on; host/plans.h has a function that tells the rows of the blocks, to copy. */
uint32_t gw_walk(const uint8_t *table, size_t table_len,
                 const uint32_t *plan, size_t plan_len,
                 uint32_t object,
                 const uint32_t *blocks, size_t blocks_len,
                 const uint8_t *variables, size_t variables_len,
                 uint32_t *pairs, size_t pairs_len,
                 uint32_t *report, size_t report_len);

#ifdef __cplusplus
}
#endif

#endif

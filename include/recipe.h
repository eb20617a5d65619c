/* The recipe engine, for the controller's engineer: check a recipe file, run it, price the can that it fills, lay out the
 * card that is pinned to it, save a run that has not come to its end, to go on with it later, and ask for the nodes of a
 * formula, to draw its outline.
 *
 * The six functions take any bytes, any words, any prices, any limit, any place and any buffers, down to length 0, and
 * always come back. They keep nothing between calls, allocate nothing and call nothing of yours, so they may be used from
 * several threads at once.
 *
 * Platform. The archive is compiled for x86-64 Linux with glibc, and for nothing else today: for another processor, system
 * or C library it does not link. This header and the two beside it need C99 or C++11; they were tried with gcc and clang,
 * -std=c99 -Wall -Wextra -pedantic -Werror, and as C++ with g++ (panel/test.sh does so anew).
 *
 * Pointers. A pointer must not be null, also where its length is 0: hand over the address of any object then. The file, the
 * prices, the words to be saved and those asked about are only read. The two buffers of a run, the one of a card and the
 * one of a save are written; they must overlap neither each other nor what is read. What is only read may overlap.
 *
 * The proof of the engine assumes all this, and the engine does not look: with the same buffer for both of a run's it tells
 * value, 1 word left, where the buffer holds nothing but 0. recipe_checked.h has each function once more with a look at its
 * pointers, for debug builds.
 *
 * Words. See RECIPE_ML_NUMBER and the table there; recipe_value.h reads a number or a list of numbers out of a run's buffer.
 *
 * Stack. See RECIPE_STACK_FOR, and RECIPE_NODE_STACK_FOR for recipe_node.
 *
 * Places are counted in words of 4 bytes from 0, the file's first word being at place 0; recipe_node counts from the first
 * of the words that it is handed.
 *
 * Owners. The operand of an L, a lump's type, is the owner of the sealed value: 0 to 255. Two types are equal only if the
 * owners of all their lumps are, so one owner's lump fits nowhere where another's is due; a script in Scheme may open it and
 * have it sealed for the other. In files written for earlier archives every L has owner 0: they mean what they meant.
 *
 * Later archives may append fields to a struct: compile with the header that comes with the archive.
 */
#ifndef RECIPE_H
#define RECIPE_H

#include <stddef.h>
#include <stdint.h>

#ifdef __cplusplus
extern "C" {
#endif

/* Stack that one call takes at most, the caller's own not counted: a base, which is what the check of a file takes, and bytes
 * for each word lent. Where the two buffers of a run differ, the shorter counts, and never more than 16,384 words.
 *
 *   recipe_run, recipe_price, recipe_card   RECIPE_STACK_FOR(words)
 *   recipe_check, recipe_save               RECIPE_STACK_BASE
 *   recipe_node                             RECIPE_NODE_STACK_FOR(words), words of the node that is asked about
 *
 * Nothing proves that a stack suffices: these are measured, on a thread of x86-64 Linux, with the deepest terms that so many
 * words allow and the deepest files, and have at least a quarter to spare. In bytes:
 *
 *                         64 words   1,024 words   4,096 words   16,384 words
 *   a run serves in        192,512       192,512       331,776      1,249,280
 *   RECIPE_STACK_FOR       268,288       360,448       655,360      1,835,008
 *   a node serves in        16,384       188,416       729,088      2,891,776
 *   RECIPE_NODE_STACK_FOR   30,720       245,760       933,888      3,686,400
 *
 * A check or a save alone serves in 192,512 bytes. RECIPE_STACK_BYTES serves all but recipe_node, whatever is lent.
 * `compare stack` in harness/ tries the figures of this header, and `compare stack --find` measures anew. */
#define RECIPE_STACK_BASE 262144u
#define RECIPE_STACK_PER_WORD 96u
#define RECIPE_STACK_FOR(words) (RECIPE_STACK_BASE + RECIPE_STACK_PER_WORD * (words))
#define RECIPE_STACK_BYTES (2u * 1024u * 1024u)
#define RECIPE_NODE_STACK_BASE 16384u
#define RECIPE_NODE_STACK_PER_WORD 224u
#define RECIPE_NODE_STACK_FOR(words) (RECIPE_NODE_STACK_BASE + RECIPE_NODE_STACK_PER_WORD * (words))

/* A file has 24 to 16,384 bytes. Of a run's buffer, words past the 16,384th are never used, but they are set to 0. */
#define RECIPE_FILE_BYTES 16384u
#define RECIPE_BUFFER_WORDS 16384u

/* Words. A word has 32 bits: its kind + 256 * its operand, both 0 or more, the kind under 256. A node is its own word and then
 * the words of its parts, one part after the other (prefix order); so a part stands whole before the next begins.
 *
 *   kind                      operand            parts
 *    1  N, a number's type    0                  none
 *    2  L, a lump's type      owner, 0 to 255    none
 *    3  list, {t}             0                  a type
 *    4  function, t to u      0                  a type, a type
 *   16  ML variable           0 to 16,777,215    none
 *   17  ML number             0 to 16,777,215    none
 *   18  ML lambda             0                  a type, an ML term
 *   19  ML application        0                  two ML terms
 *   20  ML fix                0                  an ML term
 *   21  ML add                0                  two ML terms
 *   22  ML subtract           0                  two ML terms
 *   23  ML if0                0                  three ML terms
 *   24  ML nil                0                  a type, the items'
 *   25  ML cons               0                  two ML terms: an item, and the list of the others
 *   26  ML hd                 0                  an ML term
 *   27  ML tl                 0                  an ML term
 *   28  ML null?              0                  an ML term
 *   29  ML wrong              code, 1 to 65,535  a type
 *   30  ML ms                 0                  a type, a Scheme term
 *   32  Scheme variable       0 to 16,777,215    none
 *   33  Scheme number         0 to 16,777,215    none
 *   34  Scheme lambda         0                  a Scheme term
 *   35  Scheme application    0                  two Scheme terms
 *   36  Scheme add            0                  two Scheme terms
 *   37  Scheme subtract       0                  two Scheme terms
 *   38  Scheme if0            0                  three Scheme terms
 *   39  Scheme nil            0                  none
 *   40  Scheme cons           0                  two Scheme terms
 *   41  Scheme hd             0                  a Scheme term
 *   42  Scheme tl             0                  a Scheme term
 *   43  Scheme test           0 fun?, 1 list?,   a Scheme term
 *                             2 null?, 3 num?
 *   44  Scheme wrong          code, 1 to 65,535  none
 *   45  Scheme sm             0                  a type, an ML term
 *
 * There are no other kinds. A variable's operand counts the lambdas, of both languages, between it and its own.
 *
 * A file is words of 4 bytes, the lowest byte first. Its first four words, the header, are plain numbers:
 *
 *   0  how many words the declared type has, at least 1
 *   1  the place of the declared type, always 4
 *   2  how many words the term has, at least 1
 *   3  the place of the term: 4 + word 0
 *
 * The words of the declared type follow, then those of the term, an ML term, and with them the file ends. add 2 3, declared N:
 * 1 4 3 5, 1, 21 529 785.
 *
 * After a run that ends as RECIPE_VALUE the value's words stand first in the first buffer, `left` of them, without a header,
 * as uint32_t. The number n, of type N, is the one word 17 + 256 * n: 5 is 1297. A list of numbers, of type {N}, is 25 and the
 * number's word for each item, in order, and then 24 1: the list of 7 and 0 is 25 1809 25 17 24 1, and the empty one 24 1.
 * recipe_value.h reads both. A value of another type is drawn by recipe_node, as panel/outline.c does. */
enum {
    RECIPE_TYPE_N = 1,
    RECIPE_TYPE_L = 2,
    RECIPE_TYPE_LIST = 3,
    RECIPE_TYPE_FUNCTION = 4,

    RECIPE_ML_VARIABLE = 16,
    RECIPE_ML_NUMBER = 17,
    RECIPE_ML_LAMBDA = 18,
    RECIPE_ML_APPLICATION = 19,
    RECIPE_ML_FIX = 20,
    RECIPE_ML_ADD = 21,
    RECIPE_ML_SUBTRACT = 22,
    RECIPE_ML_IF0 = 23,
    RECIPE_ML_NIL = 24,
    RECIPE_ML_CONS = 25,
    RECIPE_ML_HD = 26,
    RECIPE_ML_TL = 27,
    RECIPE_ML_NULL = 28,
    RECIPE_ML_WRONG = 29,
    RECIPE_ML_MS = 30,

    RECIPE_SCHEME_VARIABLE = 32,
    RECIPE_SCHEME_NUMBER = 33,
    RECIPE_SCHEME_LAMBDA = 34,
    RECIPE_SCHEME_APPLICATION = 35,
    RECIPE_SCHEME_ADD = 36,
    RECIPE_SCHEME_SUBTRACT = 37,
    RECIPE_SCHEME_IF0 = 38,
    RECIPE_SCHEME_NIL = 39,
    RECIPE_SCHEME_CONS = 40,
    RECIPE_SCHEME_HD = 41,
    RECIPE_SCHEME_TL = 42,
    RECIPE_SCHEME_TEST = 43,
    RECIPE_SCHEME_WRONG = 44,
    RECIPE_SCHEME_SM = 45
};

/* Why a call is refused. In brackets: what the place points at; it is 0 where nothing is said.
 *
 *   1  the size: not a multiple of 4 bytes, under 24 bytes or over 16,384
 *   2  the header: a count is 0, an offset is not the one due, or the words do not add up to the file's length
 *   3  a word has no kind or operand that is due there, as an L with an owner over 255 [that word]; the words of the
 *      declared type or of the term run out [one past them]; or some remain [the first that remains]
 *   4  nesting over 256 levels [the first word that is too deep]
 *   5  a variable without a lambda of its own language [that variable's word]
 *   6  the term has no type; also where two types in it are equal but for an owner [of all nodes that have no type, or in
 *      Scheme are not well formed, while all their own parts are in order, the one with the lowest place]
 *   7  the term's type is not the declared one, if only by an owner [the first word of the declared type that differs from
 *      the type that the term has]
 *   8  the term has more words than the capacity (recipe_run, recipe_price and recipe_card)
 *   9  the declared type is not {N}, a list of numbers (recipe_price and recipe_card alone, as are the next two)
 *  10  the value has more than nine items
 *  11  a price is over 1,000,000 cents for 1,000 pulses
 *  12  the file would have more than 16,384 bytes (recipe_save alone, as is the next)
 *  13  the buffer is shorter than the file
 *  14  the buffer is shorter than the card (recipe_card alone)
 *
 * Where several fit, the first in this order is given: 11, before the file is read; 1; 2; 3 and 4, by whichever word comes
 * first; 5; 6; 7; 9; 8; and when the run has come to a value, 10 and then 14. Earlier archives told place 0 with 6 and 7.
 *
 * recipe_save is handed words, not a file, and gives, in this order: 12, from the two lengths alone; 3 and 4, by whichever
 * word comes first, the declared type's before the term's; 5; 6; 7; 13. Places, those of 3 to 7, are those in the file to be
 * written: the declared type begins at place 4, the term behind it. An empty type is 3 at place 4, an empty term 3 one past
 * the type. */
enum {
    RECIPE_SIZE = 1,
    RECIPE_HEADER = 2,
    RECIPE_WORD = 3,
    RECIPE_NESTING = 4,
    RECIPE_SCOPE = 5,
    RECIPE_NO_TYPE = 6,
    RECIPE_OTHER_TYPE = 7,
    RECIPE_CAPACITY = 8,
    RECIPE_NOT_NUMBERS = 9,
    RECIPE_ITEMS = 10,
    RECIPE_PRICES = 11,
    RECIPE_FILE_TOO_LONG = 12,
    RECIPE_BUFFER_TOO_SHORT = 13,
    RECIPE_CARD_BUFFER_TOO_SHORT = 14
};

/* Checks a file. 0: accepted; else the refusal's number + 256 * its place. */
uint64_t recipe_check(const uint8_t *file, size_t file_len);

/* How a run ends, tested in this order at each term:
 *
 *   value  the term is a value: the result
 *   spent  the steps made equal the limit
 *   error  a wrong ends the run; `code` says which: 1 no number, for a Scheme add, subtract or if0, or for an ms N;
 *          2 no function, 3 no list, 4 empty list, 5 number over 16,777,215, or the recipe's own, which may be any from
 *          1 to 65,535
 *   full   the next term has more words than the capacity */
enum { RECIPE_VALUE = 0, RECIPE_SPENT = 1, RECIPE_ERROR = 2, RECIPE_FULL = 3 };

typedef struct {
    uint32_t refusal; /* 0: the run ended as the fields below say; else the refusal's number, and they are 0 */
    uint32_t place;   /* of the refusal */
    uint32_t end;     /* RECIPE_VALUE, RECIPE_SPENT, RECIPE_ERROR or RECIPE_FULL */
    uint32_t code;    /* of an error; else 0 */
    uint32_t steps;   /* steps made; the one in which an error ends the run is counted */
    uint32_t left;    /* words of the term that stands first in the first buffer; 0 after an error */
    uint32_t wanted;  /* words of the next term, where it was too large: RECIPE_FULL, at most 268,435,456; else 0 */

    /* Where the steps went: the three add up to `steps`. The node that a step is made on counts, whatever it becomes. */
    uint32_t calls;       /* steps on an application or a fix */
    uint32_t conversions; /* steps on an ms or an sm */
    uint32_t others;      /* all other steps; the one in which an error ends the run is among them */
} RecipeRun;

/* Checks a file and runs it for at most `limit` steps.
 *
 * The capacity is the shorter buffer's length, at most 16,384 words. Whatever the buffers held does not matter. Both
 * are written whole: afterwards the term left stands first in the first buffer, and every other word of both is 0.
 * After a refusal or an error all words of both are 0. */
RecipeRun recipe_run(const uint8_t *file, size_t file_len, uint32_t limit,
                     uint32_t *first, size_t first_len, uint32_t *second, size_t second_len);

/* Pumps of a can, and bands of a price table. A pump's band is that of its whole count of pulses:
 *
 *   0  under 10,000 pulses
 *   1  under 100,000 pulses
 *   2  the rest */
#define RECIPE_PUMPS 9
#define RECIPE_BANDS 3

/* The largest price that is no refusal, in cents for 1,000 pulses. All 27 prices are looked at, used or not. */
#define RECIPE_PRICE_CENTS 1000000u

/* A shop's price table: cents for 1,000 pulses, by pump and band. Pump 1 has row 0. */
typedef struct {
    uint32_t cents[RECIPE_PUMPS][RECIPE_BANDS];
} RecipePrices;

/* What recipe_price tells. Amounts are in cents. Only a value is charged: after a refusal, and where the run ends as spent,
 * error or full, the total and all charges are 0. */
typedef struct {
    RecipeRun run;                 /* the run, as recipe_run tells it; or the refusal */
    uint64_t total;                /* the sum of the charges */
    uint64_t charge[RECIPE_PUMPS]; /* pump 1 first; each is pulses * price / 1,000, rounded up; 0 for a pump without an item */
} RecipePriced;

/* Prices a can: runs a file of type {N} for at most `limit` steps, and charges the value. The value is a list of at most
 * nine items, the pulses of pump 1, of pump 2 and so on.
 *
 * Capacity and buffers are as in recipe_run: the value stands first in the first buffer. After every refusal, also after
 * 10, which comes when the run has ended, all words of both are 0 and no steps are told. */
RecipePriced recipe_price(const RecipePrices *prices, const uint8_t *file, size_t file_len, uint32_t limit,
                          uint32_t *first, size_t first_len, uint32_t *second, size_t second_len);

/* The bytes of a card's line, 40 columns and a line feed; and the most that a card has, a line for each pump and the last. A
 * buffer of RECIPE_CARD_BYTES serves every card. */
#define RECIPE_CARD_LINE 41u
#define RECIPE_CARD_BYTES 410u

/* What recipe_card tells. */
typedef struct {
    RecipePriced priced; /* the pricing, as recipe_price tells it; or the refusal, and then all amounts are 0 */
    uint32_t bytes;      /* the length of the card; 0 where none is written */
} RecipeCard;

/* Prices a can as recipe_price does, with the same capacity and buffers, and lays out the batch card of the value: one line
 * for each item, in order, and a last line, each of exactly 40 columns and a line feed. Columns are counted from 1:
 *
 *   a pump's line  its number ends in column 2, the pulses in column 16, the charge in cents in column 32
 *   the last line  TOTAL in columns 1 to 5; the total in cents ends in column 32
 *
 * Numbers are in decimal, without a zero before them; all else is blank. An empty list has the last line alone. The text is
 * ASCII and no C string: `bytes` says where it ends, and only a buffer that is longer has a zero behind it.
 *
 * The card stands first in `card`, and every byte behind it is 0; whatever the buffer held does not matter. Where the run
 * ends as spent, error or full there is no charge and no card: `bytes` is 0, all of `card` is 0, and all else is as
 * recipe_price tells and leaves it, however short the buffer is. After every refusal all of `card` is 0, too, and all words
 * of both other buffers; also after 14, which comes when the run has ended, and then no steps are told. */
RecipeCard recipe_card(const RecipePrices *prices, const uint8_t *file, size_t file_len, uint32_t limit,
                       uint32_t *first, size_t first_len, uint32_t *second, size_t second_len,
                       uint8_t *card, size_t card_len);

/* What recipe_save tells. */
typedef struct {
    uint32_t refusal; /* 0: the file is written; else the refusal's number */
    uint32_t place;   /* of the refusal, in the file to be written */
    uint32_t bytes;   /* the length of the file; 0 after a refusal */
} RecipeSaved;

/* Saves the words of a declared type and of a term as a recipe file, which stands first in `out`; every byte behind it is 0.
 * After a refusal all of `out` is 0. Whatever it held does not matter. A buffer of RECIPE_FILE_BYTES serves every file.
 *
 * To go on later with a run that ended as spent or full, hand over what it left and the type that its file declares, and run
 * the saved file instead of the old one. The term is the first `left` words of the run's first buffer. The type is in the
 * file, which the run has accepted: bytes 0 to 3 are its count of words, bytes 16 and up the words, 4 bytes each, the lowest
 * first.
 *
 * In the same capacity the second run ends as one run under both limits together would have, if the second limit is at
 * least 1 and the sum at most 4,294,967,295: the same end, code, words left and wanted; steps, calls, conversions and others
 * are to be added up. After full it is full again, unless it is lent more words: at least as many as the first wanted. The
 * save of such a run is refused by 4, 12 or 13 alone. 4 and 12 are no fault of the recipe: the term nests deeper or is
 * larger, at this step, than a file may; some steps further it may be smaller again.
 *
 * A file that an earlier archive has saved is read like any other, and goes on by the rules of the archive that runs it, from
 * the term that it holds. So it may end otherwise than it would have with the earlier one: there a Scheme if0 whose test was
 * no number took its third part, and here it is error 1.
 *
 * Any other words may be handed over too: a file that is written is one that recipe_check accepts. */
RecipeSaved recipe_save(const uint32_t *type, size_t type_len, const uint32_t *term, size_t term_len,
                        uint8_t *out, size_t out_len);

/* How many words the whole node at a place has, its own word and all its parts'; 0 where none starts there. Places past the
 * end hold none, however large they are.
 *
 * The words need not be a recipe's that was accepted, nor a whole file's: any words serve, those of a run's buffer too. Those
 * of types, of ML terms and of Scheme terms are read alike, the first word saying which it is; from there on every word must
 * have a kind and an operand that are due. Scope, typing and nesting do not matter, nor how the place is reached. A file's
 * words are its bytes, 4 each, the lowest first; its four words of header are no nodes but numbers, so ask from place 4 on.
 *
 * To draw an outline, ask at the first word of the declared type and at that of the term. A node of n words at place p has
 * its first part at p + 1, each next part where the one before ends, and the last ends at p + n; with n = 1 it has no parts.
 * panel/outline.c draws one so.
 *
 * No memory is written. The stack goes by the words of the node that is asked about, whole or not, up to 176 bytes for each:
 * see RECIPE_NODE_STACK_FOR. A word without parts (N, an L with an owner, a variable or a number of
 * either language, the Scheme nil, a Scheme wrong) needs next to none, whatever stands behind it, and takes a few
 * nanoseconds. */
size_t recipe_node(const uint32_t *words, size_t words_len, size_t at);

#ifdef __cplusplus
}
#endif

#endif

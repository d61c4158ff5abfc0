/*
 * Wosthile: patch files, type files and slice files, for C11 and C++11 on x86-64.
 *
 * A stream has a type: a tree of cues and 16-bit levels, of parts that follow one another, of parts that run side by
 * side, and of parts of which one is chosen. A slice says what has come of a stream since the slice before. A patch is
 * a tree of nodes that takes a stream of one type to a stream of another. Six operations work on the files of all
 * three:
 *
 *   wosthile_check     is this a patch, and which type has the stream that it sends?
 *   wosthile_admit     is this a slice of that type, has everything come, and how much came in it?
 *   wosthile_left      what the slice leaves of the type: what is still to come
 *   wosthile_join      two slices, the second of what the first leaves, as one slice
 *   wosthile_feed      what the patch sends for a slice, the patch that is left for the next slice, and how much came
 *                      and was sent; the patch keeps the totals
 *   wosthile_longest   the longest slice of a type, by which the packets of a link are sized
 *
 * Files. A section is a count of two bytes, the high byte first, and then that many bytes. They hold one tree in
 * preorder: the root, then its parts from left to right. Each node of a tree begins with the byte of its kind
 * (enum wosthile_type_kind, wosthile_slice_kind and wosthile_node_kind). A type file and a slice file are one section;
 * a patch file is three, the type of its input, then its nodes, then its totals, which are eight bytes and no tree. All
 * values below are decimal.
 *
 * A type is nullable if it is 0, or a 4 with both parts nullable; a sequence and an either never are. A type has at
 * most 255 nodes, wherever it arises, and a patch at most 63; the nodes of a type that a node carries count for that
 * type alone.
 *
 * A slice is complete if it is 0, 2 or 4, or a 6 whose second slice is complete, or a 7 with both complete, or a 9 or
 * 10 whose slice is complete. A first part that has fully come is not crossed yet: of type 3 1 1 the slices 5 2 and
 * 6 2 1 differ.
 *
 * A choice comes in the stream, once, like a cue. Of type 5 s t a slice is 8 as long as none of the two parts is
 * chosen. The slice that chooses is 9 and a slice of s, or 10 and a slice of t; that slice may bring something at once,
 * or be empty. The part that was not chosen is then gone, and so is the mark: of type 5 1 2 the slice 9 1 leaves type
 * 1, so the next slice is 1 or 2, and 8, 9 and 10 are refused with 14.
 *
 * Arrivals are the cues and levels that have come in a slice: its kinds 2 and 4, each once. The two bytes of a level's
 * value are no kinds, a crossing and a choice are no arrivals, and what came in earlier slices is not in this one. So
 * the slice 6 2 5 4 2 4 has two. wosthile_admit counts those of its slice, wosthile_feed those of the slice that it is
 * fed and those of the slice that it sends. A slice of a type of n nodes has at most (n + 1) / 2, and so no slice more
 * than WOSTHILE_ARRIVALS_MAX. Joining two slices adds their arrivals. So however a stream is cut, the sums over its
 * accepted feeds are the same, of what arrived and of what was sent.
 *
 * Totals say how much has arrived and how much was sent in the whole show: the third section of a patch file is both as
 * numbers of four bytes, what arrived first, the high byte first. A patch that was never fed has eight zeros there.
 * wosthile_feed adds the arrivals of the slice fed and of the slice sent, and writes the sums into the patch left. So
 * the totals go wherever the patch file goes: a show that is moved to another box goes on counting there, and however
 * its stream was cut, its totals are the same. wosthile_totals_of reads them. Each goes up to WOSTHILE_TOTAL_MAX; a
 * slice with which one would pass it is refused with 31.
 *
 * In a frame loop. Keep the type file that wosthile_check writes, and two patch buffers. The first slice is one of the
 * patch's input type, and every later one is a slice of what the slices before it leave of that type. This is always
 * the first section of the patch in force, so between frames the type for wosthile_admit and wosthile_join is taken by
 *
 *     const uint8_t *type = patch;
 *     size_t type_len = 2 + (size_t)patch[0] * 256 + patch[1];
 *
 * The output slices are slices of the output type in the same way: the first one of the type that wosthile_check wrote,
 * each later one of what the outputs before it leave, which wosthile_left writes. To read one, walk down that type and
 * the slice together, from left to right: at a cue, 2 says that it comes now and 1 that it does not; at a level, 4 and
 * two bytes or 3; at an empty part there is 0; at a sequence 5 goes on in its first part, and the second has no bytes
 * yet; 6 goes through its first part and then into the second, and what is left of the sequence is what is left of the
 * second part; at parts side by side 7 goes through both; at an either 8 says that none is chosen yet, and neither part
 * has bytes; 9 goes into its first part and 10 into its second, and what is left of the either is what is left of that
 * part. examples/shared/lanes.c does this, and keeps which leaf of the first type each one is.
 *
 * Every call ends, whatever the bytes and the lengths of the files; there is nothing to test before it.
 *
 *   Accepted: the number is 0. A lent buffer holds the answer, a whole file with its count, at its front; the bytes
 *   behind the answer are as they were. A buffer of the greatest size below is never too short.
 *   Refused: the number is that of the first fault. Every byte of every lent buffer is as it was.
 *
 * What the caller has to keep:
 *
 *   - A pointer is good for as many bytes as its length says. NULL is fine with length 0 and with no other length.
 *   - Files may overlap one another, or be the same bytes. A lent buffer overlaps nothing, neither a file nor the other
 *     lent buffer: never write an answer over the file that it is made from. So a patch is never fed in place: keep two
 *     patch buffers, and swap them after each accepted feed.
 *
 * Every function is reentrant: it keeps nothing between calls, so threads may call it at the same time, each with
 * buffers of its own. None allocates memory, and none needs more than WOSTHILE_STACK_MAX bytes of stack. The archive,
 * libwosthile.a, asks for memcpy, memmove and memset at most, and for nothing else.
 *
 * docs/FORMATS.md has the same with worked examples, and the files that the programs read.
 */
#ifndef WOSTHILE_H
#define WOSTHILE_H

#if !defined(__x86_64__) || defined(__ILP32__)
#error "libwosthile.a is built for x86-64 with 64-bit pointers"
#endif

#include <stddef.h>
#include <stdint.h>

/*
 * The release, for people. Since 1.5.0 a patch file has a third section, the totals; a file of before, with two, is
 * refused with 1, and 0 8 0 0 0 0 0 0 0 0 behind its last byte makes it one of now. Since 1.4.0 wosthile_admit and
 * wosthile_feed count arrivals, in fields behind those that their answers had. Since 1.3.0 a cue or level node sends
 * only when its own slice is not empty or is complete, where before it sent at its first feed, whatever that brought.
 */
#define WOSTHILE_RELEASE "1.5.1"

/* The binary interface: changes whenever a struct, a function or a size asks for compiling again. See wosthile_abi. */
#define WOSTHILE_ABI 3

/* The greatest sizes of accepted files, in bytes. A lent buffer of that size is long enough for every answer. */
#define WOSTHILE_TYPE_FILE_MAX 257
#define WOSTHILE_SLICE_FILE_MAX 513
#define WOSTHILE_PATCH_FILE_MAX 8492

/* The most nodes of a type, and of a patch. */
#define WOSTHILE_TYPE_NODES_MAX 255
#define WOSTHILE_PATCH_NODES_MAX 63

/* The most cues and levels that can come in one slice, or be sent in one: the leaves of a type of 255 nodes. */
#define WOSTHILE_ARRIVALS_MAX 128

/* The greatest total of a patch, and the bytes of its third section: the count, 0 8, and both totals. */
#define WOSTHILE_TOTAL_MAX 4294967295u
#define WOSTHILE_TOTALS_SECTION 10

/* A thread that makes these calls needs so many bytes of stack beside its own; the deepest patches take most. */
#define WOSTHILE_STACK_MAX 61440

#ifdef __cplusplus
extern "C" {
#endif

/* The kinds of types. */
enum wosthile_type_kind {
    WOSTHILE_TYPE_EMPTY = 0,
    WOSTHILE_TYPE_CUE = 1,
    WOSTHILE_TYPE_LEVEL = 2,    /* 0 to 65,535 */
    WOSTHILE_TYPE_SEQUENCE = 3, /* two types: the second part follows the first */
    WOSTHILE_TYPE_BESIDE = 4,   /* two types, side by side */
    WOSTHILE_TYPE_EITHER = 5    /* two types, of which the stream chooses one */
};

/* The kinds of slices, and of which type each is. */
enum wosthile_slice_kind {
    WOSTHILE_SLICE_NOTHING = 0,       /* of empty */
    WOSTHILE_SLICE_CUE_AWAITED = 1,   /* of cue: not yet */
    WOSTHILE_SLICE_CUE_COME = 2,      /* of cue: come */
    WOSTHILE_SLICE_LEVEL_AWAITED = 3, /* of level: not yet */
    WOSTHILE_SLICE_LEVEL_COME = 4,    /* of level: come; then the value, two bytes, the high byte first */
    WOSTHILE_SLICE_IN_FIRST = 5,      /* of sequence: a slice of the first part */
    WOSTHILE_SLICE_CROSSED = 6,       /* of sequence: a complete slice of the first part, a slice of the second */
    WOSTHILE_SLICE_BESIDE = 7,        /* of parts side by side: a slice of each */
    WOSTHILE_SLICE_NONE_CHOSEN = 8,   /* of either: not chosen yet */
    WOSTHILE_SLICE_FIRST_CHOSEN = 9,  /* of either: the first part is chosen; a slice of it */
    WOSTHILE_SLICE_SECOND_CHOSEN = 10 /* of either: the second part is chosen; a slice of it */
};

/* The kinds of nodes, and which type each gives. What each sends and leaves is at wosthile_feed. */
enum wosthile_node_kind {
    WOSTHILE_NODE_PASS = 0,           /* gives the type of its input */
    WOSTHILE_NODE_SILENT = 1,         /* then a type: gives that type, which has to be nullable */
    WOSTHILE_NODE_CUE = 2,            /* gives cue */
    WOSTHILE_NODE_LEVEL = 3,          /* then the value, two bytes: gives level */
    WOSTHILE_NODE_BOTH = 4,           /* two nodes, each on the whole input: gives what they give, side by side */
    WOSTHILE_NODE_LEFT = 5,           /* of an input side by side, gives the left part */
    WOSTHILE_NODE_RIGHT = 6,          /* of an input side by side, gives the right part */
    WOSTHILE_NODE_FIRST = 7,          /* of a sequence, gives the first part */
    WOSTHILE_NODE_SECOND = 8,         /* of a sequence, gives the second part */
    WOSTHILE_NODE_THEN = 9,           /* two nodes, one on each part of a sequence: gives what they give, in sequence */
    WOSTHILE_NODE_CHAIN = 10,         /* two nodes, the second on what the first gives: gives what the second gives */
    WOSTHILE_NODE_REGROUP_RIGHT = 11, /* of 3 3 s t r gives 3 s 3 t r */
    WOSTHILE_NODE_REGROUP_LEFT = 12,  /* of 3 s 3 t r gives 3 3 s t r */
    WOSTHILE_NODE_SPREAD = 13,        /* of 3 s 4 t r gives 4 3 s t 3 s r */
    WOSTHILE_NODE_FRONT = 14,         /* of s gives 3 0 s */
    WOSTHILE_NODE_CHOOSE = 15,        /* two nodes, one on each part of an either: gives the one type that both give */
    WOSTHILE_NODE_MARK_FIRST = 16,    /* then a type t: of s gives 5 s t */
    WOSTHILE_NODE_MARK_SECOND = 17    /* then a type t: of s gives 5 t s */
};

/*
 * The number in every answer: 0, or that of a fault. 1 to 4 speak of a type or a patch, 5 to 7 and 30 of a patch
 * alone, 11 to 14 of a slice, 31 of the totals that a slice would leave, 20 of a lent buffer. Where one place has
 * several faults, 4 and 5 come before 1 and 1 before 2; in a slice 11 comes before 12 and 12 before 14. What each says
 * is in wosthile_sentence. The program explain finds the byte at which a file is wrong; examples/shared/faults.h does
 * it in C, with these calls alone.
 */
enum wosthile_number {
    WOSTHILE_ACCEPTED = 0,
    WOSTHILE_FAULT_CUT_SHORT = 1,
    WOSTHILE_FAULT_UNLISTED = 2,
    WOSTHILE_FAULT_LEFT_OVER = 3,
    WOSTHILE_FAULT_TYPE_TOO_LARGE = 4,
    WOSTHILE_FAULT_TOO_MANY_NODES = 5,
    WOSTHILE_FAULT_NOT_NULLABLE = 6,
    WOSTHILE_FAULT_WRONG_SHAPE = 7,
    WOSTHILE_FAULT_SLICE_CUT_SHORT = 11,
    WOSTHILE_FAULT_SLICE_UNLISTED = 12,
    WOSTHILE_FAULT_SLICE_LEFT_OVER = 13,
    WOSTHILE_FAULT_SLICE_MISPLACED = 14,
    WOSTHILE_FAULT_NO_ROOM = 20,
    WOSTHILE_FAULT_OUTPUTS_DIFFER = 30,
    WOSTHILE_FAULT_TOTAL_TOO_LARGE = 31
};

/* The sentence of a number, for a log or a screen. */
static inline const char *wosthile_sentence(uint32_t number)
{
    switch (number) {
    case WOSTHILE_ACCEPTED:
        return "The call was accepted.";
    case WOSTHILE_FAULT_CUT_SHORT:
        return "A section is longer than the bytes that remain, or what it holds needs a byte past it.";
    case WOSTHILE_FAULT_UNLISTED:
        return "A kind byte is not listed.";
    case WOSTHILE_FAULT_LEFT_OVER:
        return "Bytes follow a whole tree, or the totals, in its section, or follow the last section.";
    case WOSTHILE_FAULT_TYPE_TOO_LARGE:
        return "A type needs a 256th node.";
    case WOSTHILE_FAULT_TOO_MANY_NODES:
        return "A patch needs a 64th node.";
    case WOSTHILE_FAULT_NOT_NULLABLE:
        return "The type that a silent node carries is not nullable.";
    case WOSTHILE_FAULT_WRONG_SHAPE:
        return "The input of a node lacks the shape that the node takes.";
    case WOSTHILE_FAULT_SLICE_CUT_SHORT:
        return "A slice is cut short: its section or its tree needs more bytes than there are.";
    case WOSTHILE_FAULT_SLICE_UNLISTED:
        return "A slice has a kind that is not listed.";
    case WOSTHILE_FAULT_SLICE_LEFT_OVER:
        return "A slice has bytes left over, in its section or after it.";
    case WOSTHILE_FAULT_SLICE_MISPLACED:
        return "A slice has a kind that does not belong there, as that of a cue that has come already; "
               "or the first part of a crossing is not complete.";
    case WOSTHILE_FAULT_NO_ROOM:
        return "The lent buffer, or either of two, is too short for this answer; one of the greatest size never is.";
    case WOSTHILE_FAULT_OUTPUTS_DIFFER:
        return "The two nodes of choose give different types.";
    case WOSTHILE_FAULT_TOTAL_TOO_LARGE:
        return "A total of the patch would pass 4,294,967,295.";
    default:
        return "No operation answers this number.";
    }
}

/* The answer of an operation that writes a file. */
typedef struct {
    uint32_t number; /* 0, or the number of the first fault */
    size_t written;  /* how many bytes are at the front of the lent buffer; 0 on a refusal */
} wosthile_written;

/* The answer of wosthile_admit. */
typedef struct {
    uint32_t number;   /* 0, or the number of the first fault */
    uint32_t complete; /* 1 if the slice is complete, 0 if it is not; 0 on a refusal */
    uint32_t arrived;  /* how many cues and levels came in the slice; 0 on a refusal */
} wosthile_admitted;

/* The answer of wosthile_feed. */
typedef struct {
    uint32_t number;  /* 0, or the number of the first fault */
    size_t output;    /* how many bytes are at the front of the output buffer; 0 on a refusal */
    size_t patch;     /* how many bytes are at the front of the buffer for the patch left; 0 on a refusal */
    uint32_t arrived; /* how many cues and levels came in the slice; 0 on a refusal */
    uint32_t sent;    /* how many cues and levels are in the slice sent; 0 on a refusal */
} wosthile_fed;

/* The totals of a patch: how many cues and levels arrived, and how many were sent, in all feeds that led to it. */
typedef struct {
    uint32_t arrived;
    uint32_t sent;
} wosthile_totals;

/* A number of four bytes, the high byte first. */
static inline uint32_t wosthile_four_bytes(const uint8_t *bytes)
{
    return (uint32_t)bytes[0] << 24 | (uint32_t)bytes[1] << 16 | (uint32_t)bytes[2] << 8 | bytes[3];
}

/* Reads the totals of a patch file that an operation accepted or wrote: its last eight bytes. */
static inline wosthile_totals wosthile_totals_of(const uint8_t *patch, size_t patch_len)
{
    wosthile_totals totals = {wosthile_four_bytes(patch + patch_len - 8), wosthile_four_bytes(patch + patch_len - 4)};
    return totals;
}

/*
 * Writes to type the file of the type that the patch gives, at most WOSTHILE_TYPE_FILE_MAX bytes; the patch file may be
 * shorter than that. Refuses the patch with 1 to 7 or 30, then with 20.
 *
 * The whole file is read first, from left to right, and refused with 1 to 5: a third section of another length than
 * eight with 1 if it is shorter or not whole, with 3 if it is longer, a missing one with 1. Then the nodes are tried
 * in preorder: at a node 7, then 6, then the faults of its parts, then 30 if it is choose and its two nodes give
 * different types, then 4 if the type that it gives needs a 256th node.
 */
wosthile_written wosthile_check(const uint8_t *patch, size_t patch_len, uint8_t *type, size_t type_len);

/*
 * Is the file at slice a slice of the type whose file is at type, is it complete, and how many cues and levels came in
 * it? Refuses the type with 1 to 4, then the slice with 11 to 14.
 */
wosthile_admitted wosthile_admit(const uint8_t *type, size_t type_len, const uint8_t *slice, size_t slice_len);

/*
 * Writes to left the file of the type that the slice leaves, at most WOSTHILE_TYPE_FILE_MAX bytes and never more than
 * type_len. Refuses as wosthile_admit does, then with 20.
 *
 *   slice 0, 2, 4   leaves empty
 *   slice 1, 3, 8   leaves the type
 *   slice 5         leaves a sequence of what is left of the first part and the whole second
 *   slice 6         leaves what is left of the second part
 *   slice 7         leaves both remainders side by side
 *   slice 9, 10     leaves what is left of the chosen part
 */
wosthile_written wosthile_left(const uint8_t *type, size_t type_len, const uint8_t *slice, size_t slice_len,
                               uint8_t *left, size_t left_len);

/*
 * Writes to joined the file of first and second as one slice of the type, at most WOSTHILE_SLICE_FILE_MAX bytes.
 * second is a slice of what first leaves of the type, the type that wosthile_left writes. Refuses the type with 1 to 4,
 * then first with 11 to 14, then second with 11 to 14, then with 20. The number does not tell the two slices apart.
 *
 *   first      second     joined
 *   0, 2, 4    0          first
 *   1, 3, 8    q          q
 *   5 p        5 q        5, p joined with q
 *   5 p        6 b q      6, p joined with b, q
 *   6 b p      q          6 b, p joined with q
 *   7 p r      7 q s      7, p joined with q, r joined with s
 *   9 p        q          9, p joined with q
 *   10 p       q          10, p joined with q
 */
wosthile_written wosthile_join(const uint8_t *type, size_t type_len, const uint8_t *first, size_t first_len,
                               const uint8_t *second, size_t second_len, uint8_t *joined, size_t joined_len);

/*
 * Feeds the slice to the patch. Writes to output the file of the slice that the patch sends, at most
 * WOSTHILE_SLICE_FILE_MAX bytes, and to left the file of the patch left, at most WOSTHILE_PATCH_FILE_MAX bytes. The
 * patch left is a patch that wosthile_check accepts: its input type, the first section, is what the slice leaves of
 * the input type, and it gives what the output leaves of the type that the patch gave. Its totals are those of the
 * patch fed and the arrivals of the two slices. It can be longer than the patch fed: with the totals behind them, the
 * six bytes 0 1 1 0 1 2, a cue node on a cue, fed 0 1 2 leave the seven 0 1 0 0 2 1 0. Only a buffer of
 * WOSTHILE_PATCH_FILE_MAX bytes is always long enough.
 *
 * Refuses the patch as wosthile_check does, with 1 to 7 or 30; then the slice with 11 to 14, against the input type of
 * the patch; then with 31 if a total would pass WOSTHILE_TOTAL_MAX; then with 20 if either buffer is too short. A
 * refusal alters neither buffer, so the next feed is handed the patch that this one was handed. A slice without
 * arrivals, for which nothing is sent, is accepted whatever the totals are.
 *
 * The arrivals of the slice fed are in arrived, whatever the patch does with them, and those of the slice sent in sent:
 * both and spread can send an arrival twice, left may send none of them, and a cue or level node sends one of its own,
 * once. What goes from one node to another inside the patch is not sent. A slice with no arrival may make the patch
 * send some.
 *
 * What a node sends and leaves; b and c are complete, and p, q and r are any slices.
 *
 *   node             on           sends                                        leaves
 *   pass             p            p                                            pass
 *   silent, type n   anything     the empty slice of n                         itself
 *   cue              p            2, if p is not empty or is complete          silent 0
 *                                 1, if it is empty and not complete           itself
 *   level, value v   p            4 v, if p is not empty or is complete        silent 0
 *                                 3, if it is empty and not complete           itself
 *   both             p            7, what each of its nodes sends on p         both, of the nodes left
 *   left             7 p q        p                                            itself
 *   right            7 p q        q                                            itself
 *   first            5 p          p                                            itself
 *                    6 b q        b                                            silent, what b leaves of the first part
 *   second           5 p          the empty slice of the second part           itself
 *                    6 b q        q                                            pass
 *   then             5 p          5, what the first sends on p                 then, of the first left and the second
 *                    6 b q        6, what the first sends on b and the second  what the second leaves, alone
 *                                 on q
 *   chain            p            what the second sends on what the first      chain, of the nodes left
 *                                 sends on p
 *   regroup right    5 5 p        5 p                                          itself
 *                    5 6 b q      6 b 5 q                                      pass
 *                    6 6 b c q    6 b 6 c q                                    pass
 *   regroup left     5 p          5 5 p                                        itself
 *                    6 b 5 q      5 6 b q                                      pass
 *                    6 b 6 c q    6 6 b c q                                    pass
 *   spread           5 p          7 5 p 5 p                                    itself
 *                    6 b 7 q r    7 6 b q 6 b r                                pass
 *   front            p            6 0 p                                        pass
 *   choose           8            the empty slice of the type that it gives    itself
 *                    9 p          what the first sends on p                    what the first leaves, alone
 *                    10 p         what the second sends on p                   what the second leaves, alone
 *   mark first       p            9 p, even if nothing has come                pass
 *   mark second      p            10 p, even if nothing has come               pass
 *
 * The empty slice of a type says that nothing has come: 0, 1 or 3 at its leaves, 5 with the empty slice of the first
 * part, 7 with both empty, 8 alone.
 *
 * Cue and level wait until something comes in the slice that they themselves are fed, of the type that they take: on
 * type 4 1 1 the nodes 10 5 2, a cue on the left side, send 1 for the slice 7 1 2. A 6, a 9 or a 10 is no empty slice,
 * even with no arrival in it. Of a nullable type the empty slice is complete, so on such a type they send at their
 * first feed: 10 14 9 2 0 puts a cue in front of the show, and 10 1 0 2 is a cue that does not wait. Front, mark first
 * and mark second act at their first feed on every type.
 */
wosthile_fed wosthile_feed(const uint8_t *patch, size_t patch_len, const uint8_t *slice, size_t slice_len,
                           uint8_t *output, size_t output_len, uint8_t *left, size_t left_len);

/*
 * Writes to slice the file of a longest slice of the type, at most WOSTHILE_SLICE_FILE_MAX bytes: no slice that
 * wosthile_admit accepts for this type has a longer file; the one written is accepted and complete. Refuses the type
 * with 1 to 4, then with 20.
 *
 * Every cue and every level has come, the levels at their largest, and every sequence is crossed. Of an either the side
 * is chosen whose slice is longer, in bytes and not in nodes; where both are equally long, the first.
 *
 *   type      its longest slice
 *   0         0
 *   1         2
 *   2         4 255 255
 *   3 s t     6, the longest of s, the longest of t
 *   4 s t     7, the longest of s, the longest of t
 *   5 s t     9, the longest of s; or 10, the longest of t, if that is the longer of the two
 *
 * So 5 4 1 1 2 gives 9 7 2 2, and 5 2 4 1 1 gives 9 4 255 255: both sides have three bytes, and the first is chosen.
 *
 * Whoever sizes the packets of a link calls it twice, before the show: with the input type of the patch, its first
 * section, for the slices that the show takes; and with the type that wosthile_check writes, for those that it gives.
 * This holds to the end of the show. Every later slice is one of what the slices before it leave, and the longest of
 * what is left is never longer than the longest of the whole; nor is a slice that wosthile_join makes of several.
 */
wosthile_written wosthile_longest(const uint8_t *type, size_t type_len, uint8_t *slice, size_t slice_len);

/*
 * The WOSTHILE_ABI that the archive was built for, for callers that do not include this header.
 *
 * A caller that does include it is not linked with an archive of another ABI, which would take and give structs of
 * another size: the header refers to a function whose name has the number, and only the right archive has it. A
 * compiler that does not know the attribute retain (before gcc 11 and clang 13) lets a linker that removes unused
 * sections remove the reference too; such a program may compare wosthile_abi() with WOSTHILE_ABI when it begins.
 */
uint32_t wosthile_abi(void);

#define WOSTHILE_WITH_NUMBER(name, number) name##number
#define WOSTHILE_NAMED_FOR(name, number) WOSTHILE_WITH_NUMBER(name, number)
#define WOSTHILE_ABI_FUNCTION WOSTHILE_NAMED_FOR(wosthile_abi_, WOSTHILE_ABI)

#ifdef __has_attribute
#if __has_attribute(retain)
#define WOSTHILE_KEPT __attribute__((used, retain))
#endif
#endif
#ifndef WOSTHILE_KEPT
#define WOSTHILE_KEPT __attribute__((used))
#endif

uint32_t WOSTHILE_ABI_FUNCTION(void);
WOSTHILE_KEPT static uint32_t (*const wosthile_abi_needed)(void) = WOSTHILE_ABI_FUNCTION;

/* The layout that the archive was built for. */
#ifdef __cplusplus
#define WOSTHILE_HOLDS(condition, reason) static_assert(condition, reason)
#else
#define WOSTHILE_HOLDS(condition, reason) _Static_assert(condition, reason)
#endif

WOSTHILE_HOLDS(sizeof(size_t) == 8, "a length has eight bytes");
WOSTHILE_HOLDS(sizeof(wosthile_written) == 16, "wosthile_written has sixteen bytes");
WOSTHILE_HOLDS(offsetof(wosthile_written, number) == 0, "the number comes first");
WOSTHILE_HOLDS(offsetof(wosthile_written, written) == 8, "the length follows at eight");
WOSTHILE_HOLDS(sizeof(wosthile_admitted) == 12, "wosthile_admitted has twelve bytes");
WOSTHILE_HOLDS(offsetof(wosthile_admitted, number) == 0, "the number comes first");
WOSTHILE_HOLDS(offsetof(wosthile_admitted, complete) == 4, "complete follows at four");
WOSTHILE_HOLDS(offsetof(wosthile_admitted, arrived) == 8, "what arrived follows at eight");
WOSTHILE_HOLDS(sizeof(wosthile_fed) == 32, "wosthile_fed has thirty-two bytes");
WOSTHILE_HOLDS(offsetof(wosthile_fed, number) == 0, "the number comes first");
WOSTHILE_HOLDS(offsetof(wosthile_fed, output) == 8, "the length of the output follows at eight");
WOSTHILE_HOLDS(offsetof(wosthile_fed, patch) == 16, "the length of the patch left follows at sixteen");
WOSTHILE_HOLDS(offsetof(wosthile_fed, arrived) == 24, "what arrived follows at twenty-four");
WOSTHILE_HOLDS(offsetof(wosthile_fed, sent) == 28, "what was sent follows at twenty-eight");

#undef WOSTHILE_HOLDS

#ifdef __cplusplus
}
#endif

#endif

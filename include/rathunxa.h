/** @file rathunxa.h
 *  @brief Findings in what the loggers of a bridge report: file working, and two open calls on timestamps.
 *
 *  A bridge has loggers, each with a clock of its own. A PLAN is a file that
 *  says which loggers and kinds of report there are, and which nodes look for
 *  what. A PASSAGE is a file with what the loggers report for one train or
 *  lorry: its EVENTS, in the order of their arrival. rathunxa_work() works a
 *  plan and a passage into FINDINGS, each one detection by one node, and
 *  writes them into an output that the caller lends.
 *
 *  Two more calls stand open: rathunxa_join() and rathunxa_compare(), on lists
 *  of timestamps and without files.
 *
 *  The functions are proved: for every argument they answer as said below.
 *
 *  @section timestamps Timestamps
 *
 *  What a logger reports carries a timestamp: the logger and its local tick.
 *  Ticks of one logger are ordered as numbers. Between two loggers only the
 *  coarser global tick counts, the local tick divided by the ratio and rounded
 *  down, and one global tick of difference decides nothing:
 *
 *    s is BEFORE t if they have one logger and s's local tick is smaller, or
 *    if the loggers differ and s's global tick plus 1 is less than t's.
 *    s and t are CONCURRENT if neither is before the other.
 *
 *  A COMPOSITE TIMESTAMP is a non-empty set of pairwise concurrent timestamps,
 *  at most one for each logger. The JOIN of timestamps is the set of those
 *  that are before no other of them: the latest ones. It is the same in
 *  whatever order and grouping they are joined. A finding carries the join of
 *  its events' timestamps.
 *
 *  @section files The two files
 *
 *  All numbers are big-endian. A count has 2 bytes. The sections of a file
 *  come one after the other, each with its count first, and nothing after the
 *  last one.
 *
 *  @verbatim
 *    Plan     clocks   1        the ratio, 4 bytes, 1 to 1,000,000
 *             loggers  1 to 8   number, 2 bytes, each above the one before
 *             kinds    1 to 32  number, 2 bytes, each above the one before
 *             nodes    1 to 16  operator, 1 byte: 1 OR, 2 AND, 3 SEQ,
 *                                                 4 aperiodic, 5 accumulated,
 *                                                 6 absence
 *                               context, 1 byte: 1 recent, 2 chronicle,
 *                                                3 continuous, 4 cumulative
 *                               left input, 2 bytes
 *                               middle input, 2 bytes
 *                               third input, 2 bytes; 65,535 with 1 to 3
 *    Passage  events   0 to 128 kind number, 2 bytes
 *                               logger number, 2 bytes
 *                               local tick, 8 bytes, 0 to 2^63 - 1
 *  @endverbatim
 *
 *  An input is the place of a kind in the plan, counted from 0, or 32,768 plus
 *  the place of an earlier node. Events are numbered from 0.
 *
 *  OR passes on what comes by either input. AND combines what comes by one
 *  input with what waits at the other. SEQ combines what comes by the middle
 *  input with what came by the left, waits and is before it. Of those waiting,
 *  recent takes the latest, chronicle the earliest, and each taken makes a
 *  finding; continuous takes all and makes a finding of each; cumulative takes
 *  all and makes one finding of them together.
 *
 *  Three operators have an interval, which the third input ends:
 *  - APERIODIC is SEQ, and what comes by the third input removes the waiting
 *    lefts before it and makes nothing.
 *  - ACCUMULATED lets lefts and middles wait. What comes by the third input
 *    takes of the lefts before it; a finding has those taken, the third, and
 *    each waiting middle that is after one of those lefts and before the third.
 *    Then all lefts and middles before the third are removed, in every context
 *    and also where there was no left to take.
 *  - ABSENCE lets lefts and middles wait, the middles to the passage's end.
 *    What comes by the third input takes of the lefts before it that no waiting
 *    middle blocks: one that the left is weakly before, and that is weakly
 *    before the third (see rathunxa_compare()). A finding has no middle, and a
 *    middle that comes late takes none back.
 *
 *  What an event brings to a node is taken by the left input, then by the
 *  middle, then by the third.
 *
 *  @section findings A finding in the output
 *
 *  The findings stand one after the other from the output's first byte on, in
 *  the order they were made. Each takes 6 + 10 S + 2 E bytes, at most 342:
 *
 *  @verbatim
 *    2       place of the node that made it
 *    2       S, how many timestamps, 1 to 8
 *    10 x S  logger number (2) and local tick (8), by rising logger number
 *    2       E, how many events, 1 to 128
 *    2 x E   event numbers, rising
 *  @endverbatim
 *
 *  @section memory Who owns which memory
 *
 *  - All memory is the caller's. The library allocates none, keeps no pointer
 *    after a call and has no state: calls from several threads are safe.
 *  - A file is lent as a pointer and its length in bytes. The library reads
 *    these bytes and writes none of them.
 *  - The output is lent as a pointer and its length in bytes. The library
 *    writes the findings to its first bytes and changes no other byte. It need
 *    not be cleared. It must overlap neither file.
 *  - A list is lent as a pointer and a count of entries, NOT of bytes. The
 *    library reads entries 0 to count - 1 and writes none of them.
 *  - While a call runs, nobody else may write to what it was lent.
 *  - Answers are returned by value.
 *  - A call runs on the caller's stack: rathunxa_work() takes at most
 *    RATHUNXA_STACK bytes of it, the other calls less. It clears up to 19
 *    kilobytes there first.
 *
 *  @section traps Traps
 *
 *  - A pointer must lead to as many bytes or entries as the length or count
 *    says. The library cannot check that. With 0 the pointer may be NULL.
 *  - Look at the number first. With a number other than 0 there is no result:
 *    no finding, the timestamps all blank, the order incomparable and weakly
 *    before false. Only a limit (31 to 33) leaves the findings before it in the
 *    output. The place says where the fault or limit is.
 *  - After rathunxa_work() only the first `bytes` bytes of the output are its
 *    own. What follows is as the caller left it.
 *  - Plan, passage and findings give a logger's NUMBER, which the plan
 *    chooses. An entry of a list names a logger by its PLACE, 0 to 7.
 *  - Concurrent does not carry over: with ratio 10, 1:80 (logger 1, tick 80)
 *    is concurrent with 2:90 and that with 3:100, but 1:80 is before 3:100.
 *  - "Not before" does not mean "after": two composite timestamps may also be
 *    concurrent or incomparable. Weakly before is wider than "before or
 *    concurrent": with ratio 10, 1:80 alone and 2:90 with 3:100 are
 *    incomparable, and the first is weakly before the second.
 *  - A larger tick of another logger is not a later one: with ratio 10, 1:89
 *    is concurrent with 2:90.
 *  - Equal timestamps are concurrent. A list may hold one several times.
 *
 *  @section limits Limits
 *
 *  Loggers 8, kinds 32, nodes 16, events 128; 16 occurrences wait in each of a
 *  node's two lists; a node makes 8 findings from an event. A list 1 to 128
 *  entries; ratio 1 to 1,000,000; local tick 0 to 2^63 - 1. Past a limit a call
 *  is turned back or ends under a number, see below.
 */
#ifndef RATHUNXA_H
#define RATHUNXA_H

#include <stdbool.h>
#include <stddef.h>
#include <stdint.h>

#ifdef __cplusplus
extern "C" {
#endif

/** @defgroup limits_of_calls Limits
 *  @{
 */
/** Loggers of a plan, and logger places: 0 to 7. */
#define RATHUNXA_LOGGERS 8
/** The most kinds of a plan. */
#define RATHUNXA_KINDS 32
/** The most nodes of a plan. */
#define RATHUNXA_NODES 16
/** The most events of a passage. */
#define RATHUNXA_EVENTS 128
/** The most that wait in one list of a node; each node has two. */
#define RATHUNXA_WAITING 16
/** The most findings that a node makes from one event. */
#define RATHUNXA_FINDINGS 8
/** The bytes of the longest plan that is allowed. */
#define RATHUNXA_MAX_PLAN 220
/** The bytes of the longest passage that is allowed. */
#define RATHUNXA_MAX_PASSAGE 1538
/** The bytes of the longest finding. */
#define RATHUNXA_MAX_FINDING 342
/** The most entries of a list. */
#define RATHUNXA_MAX_ENTRIES 128
/** The largest ratio: local ticks in one global tick. */
#define RATHUNXA_MAX_RATIO UINT64_C(1000000)
/** The largest local tick, 2^63 - 1. */
#define RATHUNXA_MAX_TICK UINT64_C(0x7fffffffffffffff)
/** The logger place of a blank timestamp; its tick is 0. */
#define RATHUNXA_BLANK_LOGGER 255
/** The stack bytes that rathunxa_work() may take. Measured and not proved: on
 *  x86-64 the deepest call took about 21,800. */
#define RATHUNXA_STACK 32768
/** @} */

/** @defgroup numbers Answer numbers
 *
 *  Of file working: 0, 1 to 12 and 41, 21 to 26, 31 to 33. Of the open calls: 0,
 *  34 to 37.
 *  @{
 */
/** Worked. The place is 0. */
#define RATHUNXA_OK 0

/** @name The plan is turned back
 *
 *  Both files are checked whole before the first event is worked: the plan,
 *  then the passage, in the order of these numbers; within a section entry by
 *  entry, and an entry must be complete before its fields are read in order.
 *  The first check that fails gives the number; 41 comes after 11. With 1 to 26
 *  and 41 the place is the byte offset in that file where the count or entry
 *  begins, findings and bytes are 0, and the output is as it was.
 *  @{
 */
/** The plan ends before the next count or entry is complete. */
#define RATHUNXA_PLAN_INCOMPLETE 1
/** The count of clocks is not 1. */
#define RATHUNXA_PLAN_CLOCKS 2
/** The ratio is 0 or over 1,000,000. */
#define RATHUNXA_PLAN_RATIO 3
/** The count of loggers is not 1 to 8. */
#define RATHUNXA_PLAN_LOGGERS 4
/** A logger's number is not above the one before. */
#define RATHUNXA_PLAN_LOGGER 5
/** The count of kinds is not 1 to 32. */
#define RATHUNXA_PLAN_KINDS 6
/** A kind's number is not above the one before. */
#define RATHUNXA_PLAN_KIND 7
/** The count of nodes is not 1 to 16. */
#define RATHUNXA_PLAN_NODES 8
/** A node's operator is not 1 to 6. */
#define RATHUNXA_PLAN_OPERATOR 9
/** A node's context is not 1 to 4. */
#define RATHUNXA_PLAN_CONTEXT 10
/** A node's left or middle input is neither the place of a kind nor 32,768 plus
 *  the place of an earlier node. */
#define RATHUNXA_PLAN_INPUT 11
/** A node's third input is not 65,535 with operator 1 to 3, or, with 4 to 6, is
 *  no input as the left and the middle one must be. */
#define RATHUNXA_PLAN_THIRD 41
/** Bytes remain after the plan's last node. The place is the first one's. */
#define RATHUNXA_PLAN_REST 12
/** @} */

/** @name The passage is turned back
 *  Place, totals and output as with a plan that is turned back.
 *  @{
 */
/** The passage ends before its count or the next event is complete. */
#define RATHUNXA_PASSAGE_INCOMPLETE 21
/** The count of events is over 128. */
#define RATHUNXA_PASSAGE_EVENTS 22
/** An event's kind number is not in the plan. */
#define RATHUNXA_PASSAGE_KIND 23
/** An event's logger number is not in the plan. */
#define RATHUNXA_PASSAGE_LOGGER 24
/** An event's local tick is 2^63 or more. */
#define RATHUNXA_PASSAGE_TICK 25
/** Bytes remain after the last event. The place is the first one's. */
#define RATHUNXA_PASSAGE_REST 26
/** @} */

/** @name A limit ends the work
 *
 *  The place is the number of the event that was worked. The findings made
 *  before stand in the output, the totals are theirs, and no other byte of the
 *  output is changed. 32 is tested before 33.
 *  @{
 */
/** An occurrence should wait in a list that already holds 16. */
#define RATHUNXA_WAITING_FULL 31
/** A node that has made 8 findings from this event would make another. */
#define RATHUNXA_FINDINGS_FULL 32
/** A finding does not fit whole in the output left. */
#define RATHUNXA_OUTPUT_FULL 33
/** @} */

/** @name An open call is turned back
 *
 *  The checks run in this order: 34; then for each list in turn 35, and then
 *  entry by entry 36 and 37. The first that fails gives number and place.
 *  @{
 */
/** The ratio is 0 or over 1,000,000. The place is 0. */
#define RATHUNXA_RATIO 34
/** A list is empty or has over 128 entries. The place is that of the list's
 *  first entry: 0, or the first list's count where the second is meant. */
#define RATHUNXA_ENTRIES 35
/** An entry's logger place is over 7, or its tick is 2^63 or more. The place
 *  is the entry's. */
#define RATHUNXA_ENTRY 36
/** Comparison only: an entry is not concurrent with an earlier one of its
 *  list, so the list is no composite timestamp. The place is the entry's. */
#define RATHUNXA_NOT_CONCURRENT 37
/** @} */
/** @} */

/** @defgroup orders Orders
 *
 *  How the first of two composite timestamps stands to the second: of these
 *  four just one holds.
 *  @{
 */
/** None of the other three holds; or a number other than 0 was answered. */
#define RATHUNXA_INCOMPARABLE 0
/** Each timestamp of the second has some timestamp of the first before it. */
#define RATHUNXA_BEFORE 1
/** Each timestamp of the first has some timestamp of the second before it. */
#define RATHUNXA_AFTER 2
/** Each timestamp of the first is concurrent with each of the second. */
#define RATHUNXA_CONCURRENT 3
/** @} */

/** What rathunxa_work() answers. */
struct rathunxa_answer {
    uint64_t number;   /**< 0, 1 to 12, 21 to 26, 31 to 33 or 41 */
    uint64_t place;    /**< where the number was met; 0 with number 0 */
    uint64_t findings; /**< how many findings were written; 0 with 1 to 26, 41 */
    uint64_t bytes;    /**< how many bytes they take; 0 with 1 to 26, 41 */
};

/** A timestamp, or an entry of a list. Only its two fields are read: bytes of
 *  padding between them may hold anything. */
struct rathunxa_timestamp {
    uint8_t logger; /**< logger place, 0 to 7; 255 in a blank timestamp */
    uint64_t tick;  /**< local tick, 0 to 2^63 - 1; 0 in a blank timestamp */
};

/** What rathunxa_join() answers. */
struct rathunxa_join_answer {
    uint64_t number; /**< 0, 34, 35 or 36 */
    uint64_t place;  /**< where the number was met; 0 with number 0 */
    /** The join: at index i the timestamp of logger place i, or the blank
     *  timestamp where the join has none of that logger. All eight are blank
     *  with a number other than 0. */
    struct rathunxa_timestamp timestamps[RATHUNXA_LOGGERS];
};

/** What rathunxa_compare() answers. With a number other than 0 the order is
 *  RATHUNXA_INCOMPARABLE and weakly_before is false. */
struct rathunxa_comparison {
    uint64_t number; /**< 0, 34, 35, 36 or 37 */
    uint64_t place;  /**< where the number was met; 0 with number 0 */
    /** RATHUNXA_INCOMPARABLE, RATHUNXA_BEFORE, RATHUNXA_AFTER or
     *  RATHUNXA_CONCURRENT: how the first list stands to the second. */
    uint8_t order;
    /** No timestamp of the second list is before one of the first; only this
     *  way round. True with RATHUNXA_BEFORE and RATHUNXA_CONCURRENT, false with
     *  RATHUNXA_AFTER, either with RATHUNXA_INCOMPARABLE. */
    bool weakly_before;
};

/** Works a passage under a plan and writes the findings to the output.
 *
 *  Each call starts with nothing waiting. The output may have any length; the
 *  findings of one passage may not fit in it (33).
 *
 *  @param[in]  plan         the plan's bytes
 *  @param[in]  plan_len     how many
 *  @param[in]  passage      the passage's bytes
 *  @param[in]  passage_len  how many
 *  @param[out] output       where findings are written; overlaps neither file
 *  @param[in]  output_len   how many bytes of it are lent
 *  @return number, place, findings and bytes written. Numbers:
 *  - 0         worked; place 0
 *  - 1 to 12   the plan is turned back, the place is an offset in it, the
 *    and 41    output is as it was
 *  - 21 to 26  the passage is turned back, the place is an offset in it, the
 *              output is as it was
 *  - 31 to 33  a limit ended the work at the event with the place's number;
 *              the findings before it are written
 */
struct rathunxa_answer rathunxa_work(const uint8_t *plan, size_t plan_len, const uint8_t *passage, size_t passage_len,
                                     uint8_t *output, size_t output_len);

/** Joins the timestamps of a list: those that are before no other in it.
 *
 *  The order of the entries and repeated entries make no difference.
 *
 *  @param[in] ratio  local ticks in one global tick, 1 to 1,000,000
 *  @param[in] list   the timestamps, in any order
 *  @param[in] count  how many, 1 to 128
 *  @return number, place and the join. Numbers:
 *  - 0   joined
 *  - 34  ratio not allowed, place 0
 *  - 35  count is 0 or over 128, place 0
 *  - 36  the entry at that place is not allowed
 */
struct rathunxa_join_answer rathunxa_join(uint64_t ratio, const struct rathunxa_timestamp *list, size_t count);

/** Says of two composite timestamps how the first stands to the second: before,
 *  after, concurrent or incomparable; and beside it whether the first is weakly
 *  before the second, which is that no timestamp of the second is before one of
 *  the first.
 *
 *  Places run through both lists: entry i of the second list has the place
 *  first_count + i. The first list is checked fully, then the second.
 *
 *  @param[in] ratio         local ticks in one global tick, 1 to 1,000,000
 *  @param[in] first         pairwise concurrent timestamps, in any order
 *  @param[in] first_count   how many, 1 to 128
 *  @param[in] second        pairwise concurrent timestamps, in any order
 *  @param[in] second_count  how many, 1 to 128
 *  @return number, place, order and weakly before. With a number other than 0
 *  the order is RATHUNXA_INCOMPARABLE and weakly before is false. Numbers:
 *  - 0   compared
 *  - 34  ratio not allowed, place 0
 *  - 35  a count is 0 or over 128, place 0 or first_count
 *  - 36  the entry at that place is not allowed
 *  - 37  the entry at that place is not concurrent with an earlier one of its list
 */
struct rathunxa_comparison rathunxa_compare(uint64_t ratio, const struct rathunxa_timestamp *first, size_t first_count,
                                            const struct rathunxa_timestamp *second, size_t second_count);

#ifdef __cplusplus
}
#endif
#endif /* RATHUNXA_H */

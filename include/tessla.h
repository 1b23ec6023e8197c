/*
 * The calls of the engine, for the logger's firmware.
 *
 * The engine runs a plan, a flat table of TeSSLa stream equations, on stamped readings. All it knows lies in one buffer, the
 * state, that the firmware owns and lends to each call: of TESSLA_STATE_LENGTH bytes for a plan of at most 32 streams, or of
 * TESSLA_LONG_STATE_LENGTH bytes for one of at most 64. The engine has no memory of its own, allocates nothing, keeps no pointer
 * after a call returns, and may be used with as many buffers as there is room for, of both lengths.
 *
 * A stamp is 0 to 4294967295. The horizon is 4294967296. A bound is 0 to the horizon: of a stream with bound y all events
 * at stamps below y are known. A value is any int64_t.
 *
 * Every call returns a number, 0 for done. On any other number
 *   - each further result (*moves, *stamp, *value, *up, *length, *outside, *zero) is 0, and
 *   - the state is byte for byte as it was, and so are the text buffer of tessla_plan_text and both buffers of tessla_widen. One
 *     lent buffer alone is changed by a refusal, the block of tessla_register_write, and only as is said there.
 * No call relies on its caller having tested anything. Two things are the caller's all the same, because no callee can
 * test them: a length says how many bytes really lie behind its pointer, and the buffers of one call do not overlap.
 *
 * Every length is a uint64_t, on a 32-bit controller too. Include this header; do not write the prototypes again: with
 * size_t in place of uint64_t a program for a 32-bit machine still links, and every call answers wrongly.
 *
 * No plan. Load takes a text of no bytes too, for a logger that goes out before its plan is chosen: a plan of no streams, at
 * rest from the start, and a state of zeros, of either length. On it both offers are refused 7, move and missing 11 and collect
 * 13, a run makes 0 moves, its text has no bytes, and the zeros stay. A buffer that begins as zeros, as every static one does,
 * is that state before the first load: it is not refused 15. A load that is refused leaves the state as it was, zeros too: only
 * its number tells. tessla_streams says whether there is a plan. A plan may be loaded at any time, over whatever is there; so
 * may no plan, and that ends the one that runs, with all it holds. So do not load the nothing that a card gives which could not
 * be read.
 *
 * What a logger does with the calls; examples/logger.c does all of it, but for the registers:
 *
 * Progress. An output is known only as far as the inputs that it is worked out from, and an input holds 16 readings that
 * somebody waits for. So every sensor needs offers of progress, on a schedule, and a silent or dead one above all: without
 * them the outputs that need it wait for ever, and the readings of the others are refused 9 after the 16th. If the radio
 * delivers a reading at most d seconds late, offer each input, each minute say, progress to the clock less d, but not past a
 * reading that the firmware still keeps. A reading that comes later than that is refused 8, and can't be taken any more.
 *
 * Number 9 is no loss. Keep the reading, run, collect, and offer it again; the later readings of the same sensor wait behind
 * it, since they would make it too early. If it stays 9, another sensor is behind: offer its progress.
 *
 * Work is to be done until nothing moves or waits: run and collect, again and again, until a run made no move and nothing was
 * collected after it. A run that made no move is not enough: a collection makes room, and then there is more to do.
 *
 * Interrupts. No call may interrupt a call on the same state or the same block; calls on different ones do not know of each
 * other. Let the interrupt put a reading into a queue, and the main loop offer it. A call itself may be interrupted at any time,
 * for as long as you like; a state is to be copied between calls only.
 *
 * The budget of a run. On a Cortex-M0+ at 48 MHz every call on a state, but for load and plain register writes, first looks at
 * the whole of it: 1.0 to 1.3 ms by the manual's cycles, 1.6 to 2.3 ms of a longer state. A move in a run then takes 0.1 to 0.2
 * ms. In the plans that were measured a run of n moves takes at most this look and a millisecond for each four moves, with up to
 * 64 streams. By that the 64 moves of a command 3 take 18 ms, in a longer state 19. Leave the watchdog twice that. Few calls with
 * much work in each cost least (docs/PERFORMANCE.md, "On the controller"). The plan's text takes 1.1 to 2.0 ms, of 64 streams up
 * to 3.8, and 11 ms, of 64 streams 22, if every value in it has nineteen digits; the counts of a stream hardly more than the look
 * at the state; widening 3 ms.
 *
 * Windows. The operators wsum, wmin and wmax give at each event of their argument the sum, the least or the greatest of its
 * latest k values, that event's included, or of all so far while they are fewer; k is 1 to 64, and a plan has at most eight
 * windows. A sum outside the range of values gives no event, and the window goes on over the argument's events. What a window
 * looks back at is kept in the state, behind the records.
 *
 * A gap. Where a calculation has something to work on and no value, its stream has no event: a huge value took the result out of
 * the range, or the divisor was 0. Each stream counts both, and tessla_missing reads the two counts. An output that only passes
 * others on, as merge and last do, counts nothing itself: look at the streams that it reads. Written down once a day with the
 * output's events, the counts tell a broken sensor from a mean of no readings.
 *
 * Registers. A board that talks in single bytes makes the calls through a block of 24 bytes, tessla_register_write below;
 * examples/reader.c is a driver for one. A firmware that makes the calls itself needs no block.
 *
 * A copy of the state. The buffer may be copied anywhere, to flash say, and put back later, at any address. Only the records of
 * the plan's streams are used, and the windows behind all records, if it has some: the first tessla_used_length bytes, of a
 * longer state tessla_used_length_in. All behind them is 0 and need not be saved. A block of registers is no part of the state:
 * begin with a fresh one. A state put back has had the calls made up to its copy: what was accepted or handed out after the
 * copy does not count for it. Readings offered after the copy are to be offered again, and events collected after the copy are
 * handed out again. A copy damaged in storage is refused 15 where its contents are no state; where they happen to be one, no
 * call can know that it is not the one that was saved: a storage that gives back zeros gives a state without a plan. So save to
 * two places in turn, each with a checksum: examples/saving.c does, and loses no copy to a power cut.
 *
 * More than 32 streams. Lend TESSLA_LONG_STATE_LENGTH bytes to every call, and the plan may have 64. A plan of fewer runs there
 * just as well, and gives the same. Every call on a state takes both lengths, and knows it by the length that is said; the
 * firmware remembers which one it saved. A logger that has run a plan in the shorter state and gets a firmware with the longer
 * one puts its copy back and widens it, tessla_widen below: what it holds, keeps and has counted goes on from the same point.
 * There is no way back: a plan of at most 32 streams is loaded anew into the shorter state.
 *
 * A lost card. The state has the whole plan: tessla_plan_text writes it as the text that was loaded, for a new card or a second
 * logger. What the plan has worked out so far is not in its text: a load of it begins anew. To go on elsewhere, copy the state.
 */
#ifndef TESSLA_H
#define TESSLA_H

#include <stdint.h>

#ifdef __cplusplus
extern "C" {
#endif

/*
 * The version of the calls and of the state's layout. The first part changes when a program that works today would not; the
 * second grows with everything new. A state saved under a version is read by every later one.
 *   1.2   the operators sadd, ssub, smul, sdiv, srem, slt, sle, seq in a plan; an earlier engine refuses such a text 4
 *   1.3   div, rem, sdiv, srem: a quotient goes down to the next whole number and the remainder has the divisor's sign, -7 div 2
 *         is -4, rem 1; before, it was cut toward zero, -3, rem -1. A state saved before 1.3 is read and goes on by the new
 *         rule from where it is; what it holds stays as it came in.
 *   1.4   load takes a text of no bytes, refused 2 before: a plan of no streams, all bytes of the state 0. So a state of zeros is
 *         refused 15 no more. A firmware that took this 15 for a sign that nothing was loaded asks tessla_streams instead, or
 *         keeps the number that load returned. Over a plan that runs a text of no bytes was refused, and the plan went on; now
 *         it ends it.
 *   1.5   the block of registers: tessla_register_write, tessla_register_line, number 17, and tessla_bounds. The other calls, the
 *         plan texts and the states are those of 1.4.
 *   1.6   the operators wsum, wmin, wmax in a plan, and number 18; an earlier engine refuses such a text 4. A plan without
 *         windows is laid out as before. Of a plan with windows tessla_used_length counts them in. So a firmware that saves that
 *         many bytes is to be compiled with this header: the earlier one leaves out all that the windows keep, and the copy, in
 *         which zeros stand for it, is not refused.
 *   1.7   tessla_plan_text, which gives the plan of a state back as text, and number 19. The other calls, the plan texts and the
 *         states are those of 1.6.
 *   1.8   tessla_missing, and in the state the two counts that it reads. The other calls and the plan texts are those of 1.7. A
 *         state saved before 1.8 is read; its counts are 0 and grow from its first move on, whatever was missing before. An
 *         earlier engine refuses a state 15 in which a count is not 0.
 *   1.9   64 streams in a state of 20480 bytes, which every call takes beside one of 12288; tessla_widen; tessla_limit and the names
 *         that end in _in, which read a state of either length. A state of 12288 bytes and what the calls do with it are those of
 *         1.8, but for texts of 2049 to 4096 bytes: these were refused 1, and now get the number of their first fault. For that
 *         TESSLA_TEXT_LIMIT is 4096, so a buffer of that length is longer now; 1470 bytes take every text of the shorter state.
 */
#define TESSLA_VERSION_MAJOR 1
#define TESSLA_VERSION_MINOR 9
#define TESSLA_VERSION "1.9"

/* The two lengths of a state in bytes. Any other length is refused 15. */
#define TESSLA_STATE_LENGTH 12288
#define TESSLA_LONG_STATE_LENGTH 20480

/*
 * The most bytes that a plan text may have, whatever the state. A longer one is refused 1. The text of any plan that load takes has
 * at most 1470 in the shorter state, and at most 2942 in the longer one.
 */
#define TESSLA_TEXT_LIMIT 4096

/*
 * A plan has at most 32 streams in the shorter state, at most 64 in the longer one, and none if its text has no bytes; a stream holds
 * at most 16 events. Windows: see number 18.
 */
#define TESSLA_STREAM_LIMIT 32
#define TESSLA_LONG_STREAM_LIMIT 64
#define TESSLA_ROOM 16

/* The length of the block of registers in bytes. Any other length is refused 17. */
#define TESSLA_BLOCK_LENGTH 24

/* One past the last stamp: the bound of a stream that is known to the end. */
#define TESSLA_HORIZON UINT64_C(4294967296)

/*
 * The numbers.
 *
 *    number                      returned by        reason
 */
enum tessla_number {
    TESSLA_DONE = 0,           /* all                done */
    TESSLA_TEXT_LONG = 1,      /* load               the text is longer than 4096 bytes */
    TESSLA_TEXT_FORM = 2,      /* load               wrong key, wrong form, a line missing, or bytes left over */
    TESSLA_TEXT_STREAMS = 3,   /* load               streams is 0 or above the state's limit: 32 in 12288 bytes, 64 in 20480 */
    TESSLA_TEXT_OPERATOR = 4,  /* load               one to five small letters that name no operator */
    TESSLA_TEXT_FIELD = 5,     /* load               an unused field not 0, an argument not below streams, or out=1 on in */
    TESSLA_TEXT_CYCLE = 6,     /* load               a cycle without the first argument of a last or a delay */
    TESSLA_NO_INPUT = 7,       /* both offers        no such stream, or it is not in */
    TESSLA_TOO_EARLY = 8,      /* both offers        the stamp, or the new bound, lies below the present bound */
    TESSLA_FULL = 9,           /* offer_reading      the input already holds 16 events: run, collect, offer again */
    TESSLA_PAST_HORIZON = 10,  /* offer_progress     the new bound is above the horizon */
    TESSLA_NO_EQUATION = 11,   /* move, missing      no such stream; move also: it is in */
    TESSLA_CANNOT_MOVE = 12,   /* move               the equation cannot move now */
    TESSLA_NO_OUTPUT = 13,     /* collect            no such stream, or out=0 */
    TESSLA_NOTHING = 14,       /* collect            nothing waits to be collected */
    TESSLA_BAD_STATE = 15,     /* all on a state     wrong state length; but for load also contents that are no state; of widen each
                                                     buffer has one length alone */
    TESSLA_BAD_WRITE = 17,     /* register calls     the block is not 24 bytes long; a write to bytes 17, 20 to 23 or beyond, or of
                                                     a command other than 1 to 3. (16 is the replay program's.) */
    TESSLA_TEXT_WINDOW = 18,   /* load               the k of a wsum, wmin or wmax is not 1 to 64, or there are more than eight */
    TESSLA_TEXT_ROOM = 19      /* plan_text          the lent buffer is shorter than the text of this plan */
};

/*
 * Where more than one number applies, the one named first below is returned.
 * Number 15 comes before all others but 17; load tests only the length of the state, never what it holds. A state that
 * is all zeros is refused 15 by no call; one whose byte 0 is 0 and some other byte is not, by each but load.
 */

/*
 * Load: takes a plan text and fills a fresh state, all bounds 0, whatever the state held before.
 * Numbers: 15, 1; then the first faulty line decides between 2, 3 and 4; then 5; then 18; then 6.
 * A text of no bytes, and only that one, is a plan of no streams: it is taken, nothing is read through its pointer, and every
 * byte of the state becomes 0. plan=1 alone is 2, streams=0 is 3.
 */
uint32_t tessla_load(uint8_t *state, uint64_t state_length, const uint8_t *text, uint64_t text_length);

/*
 * Offer a reading of an input. Its readings come by rising stamp; different inputs may come in any order.
 * Numbers: 15, 7, 8, 9. Done: the input is known up to and with this stamp, its bound is stamp + 1.
 */
uint32_t tessla_offer_reading(uint8_t *state, uint64_t state_length, uint32_t stream, uint32_t stamp, int64_t value);

/*
 * Offer progress of an input: it has no further reading below the new bound.
 * Numbers: 15, 7, 10, 8. A bound equal to the present one is done and alters nothing.
 */
uint32_t tessla_offer_progress(uint8_t *state, uint64_t state_length, uint32_t stream, uint64_t bound);

/*
 * Move one equation: at most one event is added to its stream.
 * Numbers: 15, 11, 12.
 */
uint32_t tessla_move(uint8_t *state, uint64_t state_length, uint32_t stream);

/*
 * Run: moves the lowest-numbered equation that can, again and again, until n moves are made or none can.
 * Number: 15. Done: *moves is the number of moves made; fewer than n means that no equation can move now.
 */
uint32_t tessla_run(uint8_t *state, uint64_t state_length, uint32_t n, uint32_t *moves);

/*
 * Collect the oldest waiting event of an output, and let it go.
 * Numbers: 15, 13, 14. Done: *stamp and *value are the event.
 */
uint32_t tessla_collect(uint8_t *state, uint64_t state_length, uint32_t stream, uint32_t *stamp, int64_t *value);

/*
 * Plan text: writes the plan of the state as text into the lent buffer `text`, and gives the text's length. The state stays as it
 * is; what its streams know, hold or keep is not in the text.
 * Numbers: 15, 19. Done: the text is in the buffer from its first byte on, *length bytes; every byte behind it stays as it was.
 * There is no ending zero byte, and *length counts none. A buffer just as long as the text is long enough; one of
 * TESSLA_TEXT_LIMIT bytes always is. Refused: no byte of the buffer is written, not even a part of the text, and *length is 0:
 * it does not say how many bytes are needed.
 * Of a state without a plan the text has no bytes: 0, *length 0, also in a buffer of no bytes, whose pointer may be NULL.
 *
 * The text is the one that load took, byte for byte, whatever calls were made on the state since. Of any state that is not
 * refused 15 load takes the text, and leaves the state that is fresh with the same plan.
 */
uint32_t tessla_plan_text(const uint8_t *state, uint64_t state_length, uint8_t *text, uint64_t text_length, uint64_t *length);

/*
 * Missing: why events of a stream are missing. A stamp counts if the operator has something to work on there, its argument's event,
 * both arguments' events, or of a signal form an event of either with the latest values of both, and has no value.
 * Numbers: 15, 11. Done: *outside is the number of stamps at which the result is outside the range of values, *zero the number of
 * those at which the divisor is 0. Where both could be said, the least value by 0, the zero divisor is. The state stays as it is.
 *
 *    operators                        outside                     zero
 *    plus neg add sub mul wsum        a result out of range
 *    sadd ssub smul                   a result out of range
 *    div sdiv                         the least value by -1       a divisor of 0
 *    rem srem                                                     a divisor of 0
 *    all others, in among them        always 0                    always 0
 *
 * The stamps are those below the stream's bound: each is counted once, by the move that takes the bound past it, whether that move
 * adds an event or not. So the counts hang on the readings and on how far the stream is known, not on the order of the calls. Load
 * leaves 0 and 0; only moves change a count, by themselves or in a run. A copy of the state has the counts that were there; one that
 * was saved before 1.8 counts from its first move on. Each count stops at 4294967295 by itself.
 */
uint32_t tessla_missing(const uint8_t *state, uint64_t state_length, uint32_t stream, uint32_t *outside, uint32_t *zero);

/*
 * Widen: copies a state of TESSLA_STATE_LENGTH bytes, `from`, into a buffer of TESSLA_LONG_STATE_LENGTH bytes, `to`, where it goes on
 * from the same point. What the buffer held before does not matter.
 * Number: 15, from is not TESSLA_STATE_LENGTH bytes long, to is not TESSLA_LONG_STATE_LENGTH bytes long, or from is no state; then no
 * byte of either changes. Done: every byte of `to` is written, and `from` stays as it is. The records of the 32 streams are at the
 * front, as they were, those of the 32 that are new are 0, and what the windows keep lies behind all 64. A state without a plan, all
 * zeros, becomes zeros.
 *
 * Both states have had the calls made up to here, and go on apart. The same calls on both return the same numbers and results, with
 * one exception: load takes 33 to 64 streams into the longer one. There is no call back.
 */
uint32_t tessla_widen(const uint8_t *from, uint64_t from_length, uint8_t *to, uint64_t to_length);

/*
 * The block of registers: TESSLA_BLOCK_LENGTH bytes that the firmware owns and lends beside a state. A number lies with its least
 * byte first, a value in two's complement. The firmware reads the bytes as they lie, between two writes. What the block holds at
 * first is the firmware's: zeros are best, and no contents are refused.
 *
 *    place                       bytes      a write        holds
 */
enum tessla_place {
    TESSLA_AT_STREAM = 0,      /* 0 to 3     is stored      the stream of command 1 and 2 */
    TESSLA_AT_STAMP = 4,       /* 4 to 7     is stored      the stamp of the reading that command 1 offers */
    TESSLA_AT_VALUE = 8,       /* 8 to 15    is stored      its value; after a command 2 that is done, the event's */
    TESSLA_AT_COMMAND = 16,    /* 16         starts it      the last command that was started */
    TESSLA_AT_STATUS = 17,     /* 17         is refused     the number of the last command or refused write */
    TESSLA_AT_FLAGS = 18,      /* 18         clears flags   the flags, below; bits 2 to 7 are none, and stay as they are */
    TESSLA_AT_MASK = 19,       /* 19         is stored      which flags take the line up; bits 2 to 7 may be anything */
    TESSLA_AT_REPLY = 20       /* 20 to 23   is refused     the reply stamp: of the event that the last command 2 handed out */
};

enum tessla_command {
    TESSLA_COMMAND_OFFER = 1,   /* tessla_offer_reading with the block's stream, stamp and value */
    TESSLA_COMMAND_COLLECT = 2, /* tessla_collect of the block's stream */
    TESSLA_COMMAND_RUN = 3      /* tessla_run with 64 moves at most */
};

enum tessla_flag {
    TESSLA_FLAG_REFUSED = 1, /* bit 0: a command or a write was refused since this flag was cleared */
    TESSLA_FLAG_WAITS = 2    /* bit 1: an output had an event waiting after some command since this flag was cleared */
};

/*
 * Write one byte of the block. What is done, which bytes of the block change, and the number that is returned:
 *   - A block of another length: 17, and no byte changes.
 *   - at 0 to 15 or 19: the byte is stored there. 0.
 *   - at 18: each of the bits 0 and 1 that is 1 in the byte is cleared in byte 18; every other bit stays. 0.
 *   - at 16, the byte 1, 2 or 3: the command's call is made. The byte is stored in byte 16 and the call's number in byte 17,
 *     done or refused. A command 2 that is done fills bytes 8 to 15 with the value and 20 to 23 with the stamp of the event; one
 *     that is refused leaves them. Bit 0 of byte 18 is set if the number is not 0. Bit 1 is set if the number is not 15 and in
 *     the state after the call an output has an event waiting, whichever command it was, done or refused. The call's number.
 *   - at 16 with another byte, at 17, at 20 and above: 17. Byte 17 becomes 17 and bit 0 of byte 18 is set; the byte is not stored.
 * Numbers: 17, by the block's length, then by at, then by the command; then the call's own, 15 first. A write that starts no
 * command does not look at the state: it is never refused 15.
 *
 * The state is as the call leaves it, and as it was where no command is started. A command counts as the call that it makes, and
 * any other write as none. So writes and calls may be mixed on one state, and a state may have more than one block. A call made
 * straight sets no status and no flag. Load and offers of progress have no command: make these calls.
 *
 * Nothing but a written 1 clears a flag; a success does not. Bit 0 says that something was refused; what, is in the status, but
 * only until the next command: look at it, or at the returned number, after each. Who collects until 14 has bit 0 set by that.
 * To learn whether something waits now, clear bit 1 and give a command: if it is not refused 15, bit 1 is set exactly if an
 * output has an event waiting after it.
 *
 * Keep a reading until it is taken: after a 9 the collects put another stream and another value into the block, so write all of
 * the reading again before command 1 is given again.
 *
 * When the work is done. Command 3 gives no count of its moves, and where nothing waits after it there may be more to do: 64 moves
 * may not have been enough. Every move raises the bound of its stream, and none lowers a bound. So a command 3 that is done leaves
 * all bounds as they were, by tessla_bounds one number, exactly if no equation could move, and then none can after it; and bit
 * 1, cleared before it, is clear after it exactly if nothing waits. Collect and give command 3, again and again, until one command
 * 3 shows both. No number of commands is enough for every plan: a timer may ring any number of times before an output has an
 * event. A board that sees the block alone cannot tell; let it give command 3 again whenever it has time: at rest that changes
 * nothing.
 */
uint32_t tessla_register_write(uint8_t *state, uint64_t state_length, uint8_t *block, uint64_t block_length, uint32_t at,
                               uint8_t byte);

/*
 * The line of a block. Number: 17, the block is not 24 bytes long. Done: *up is 1 if bit 0 is set in both byte 18 and byte 19, or
 * bit 1 is; else 0. The other bits of both do not count. The block stays as it is.
 *
 * Interrupt use. The line is a level: it is up as long as a flag and its mask bit are both set, however often the flag was set.
 * Only a write changes it, so look after each write, and let the pin follow. When it is up: read byte 18; write what was read to
 * byte 18, which clears these flags and no other; then do what they ask, for bit 0 look at the status, for bit 1 collect; and
 * again, as long as the line is up. Clear first and collect then: a collect sets bit 1 again if more waits, and a later clearing
 * would lose that. A clearing is a write like any other, and no write may interrupt a write on the same block or the same state.
 * So let interrupts put what they have into a queue, and the main loop make all writes: since only a write sets a flag, none is
 * set between the reading and the clearing. Who waits for an edge has to look at the level before he sleeps: a flag that is set
 * again while the line is up makes no edge.
 */
uint32_t tessla_register_line(const uint8_t *block, uint64_t block_length, uint32_t *up);

/*
 * What the state's bytes say without a call, by the layout in docs/LAYOUT.md, of a state that load and the calls left: stream
 * i has the record of TESSLA_RECORD bytes at i * TESSLA_RECORD; its first byte is 0 if there is no such stream and 28 to 30 if
 * it is a window, its byte 3 is 1 if it is an output, its bytes 16 to 23 are its bound, its bytes 56 to 59 and 60 to 63 the two
 * counts of tessla_missing. The values of the plan's j-th window, counted from 0 by stream number, lie at TESSLA_WINDOWS + j *
 * TESSLA_WINDOW, the oldest first, 8 bytes each, as many as byte 5 of its record says; all other bytes there are 0. In a state of
 * TESSLA_LONG_STATE_LENGTH bytes they lie from TESSLA_LONG_WINDOWS on.
 *
 * What ends in _in takes the length as the calls do, and reads a state of either. Without that ending it is of a state of
 * TESSLA_STATE_LENGTH bytes. Of another length nothing is read, and the answer is that of a state without a plan.
 */
#define TESSLA_RECORD 256
#define TESSLA_WINDOWS (TESSLA_STREAM_LIMIT * TESSLA_RECORD)
#define TESSLA_LONG_WINDOWS (TESSLA_LONG_STREAM_LIMIT * TESSLA_RECORD)
#define TESSLA_WINDOW 512

/* How many streams a state of this length has room for; 0 of a length that no state has. */
static inline uint32_t tessla_limit(uint64_t state_length) {
    return state_length == TESSLA_STATE_LENGTH        ? TESSLA_STREAM_LIMIT
           : state_length == TESSLA_LONG_STATE_LENGTH ? TESSLA_LONG_STREAM_LIMIT
                                                      : 0;
}

/* Whether a stream is an output. To ask before a collect costs nothing; a collect that is refused 13 costs a millisecond. */
static inline int tessla_is_output_in(const uint8_t *state, uint64_t state_length, uint32_t stream) {
    return stream < tessla_limit(state_length) && state[stream * TESSLA_RECORD + 3] == 1;
}

static inline int tessla_is_output(const uint8_t *state, uint32_t stream) {
    return tessla_is_output_in(state, TESSLA_STATE_LENGTH, stream);
}

/* How many streams the plan has; 0 of a state without a plan. */
static inline uint32_t tessla_streams_in(const uint8_t *state, uint64_t state_length) {
    uint32_t n = 0;
    while (n < tessla_limit(state_length) && state[n * TESSLA_RECORD] != 0) n++;
    return n;
}

static inline uint32_t tessla_streams(const uint8_t *state) { return tessla_streams_in(state, TESSLA_STATE_LENGTH); }

/*
 * How many bytes of the state are used, from its beginning; all behind them is 0. Of a state without a plan none: to put it back,
 * fill it with 0. Of a plan without windows its records; of one with windows all up to the end of the last.
 */
static inline uint32_t tessla_used_length_in(const uint8_t *state, uint64_t state_length) {
    uint32_t n = tessla_streams_in(state, state_length), windows = 0;
    for (uint32_t stream = 0; stream < n; stream++) {
        uint8_t number = state[stream * TESSLA_RECORD];
        if (number >= 28 && number <= 30) windows++;
    }
    return windows == 0 ? n * TESSLA_RECORD : tessla_limit(state_length) * TESSLA_RECORD + windows * TESSLA_WINDOW;
}

static inline uint32_t tessla_used_length(const uint8_t *state) { return tessla_used_length_in(state, TESSLA_STATE_LENGTH); }

/*
 * The sum of the bounds of all streams. A move, and an offer that makes an input known further, make it greater, and no call but
 * load makes it less: if it is the same after a run as before, the run made no move.
 */
static inline uint64_t tessla_bounds_in(const uint8_t *state, uint64_t state_length) {
    uint64_t sum = 0;
    for (uint32_t stream = 0; stream < tessla_limit(state_length); stream++) {
        uint64_t bound = 0;
        for (uint32_t end = 24; end > 16; end--) bound = bound << 8 | state[stream * TESSLA_RECORD + end - 1];
        sum += bound;
    }
    return sum;
}

static inline uint64_t tessla_bounds(const uint8_t *state) { return tessla_bounds_in(state, TESSLA_STATE_LENGTH); }

#ifdef TESSLA_TEXTS
/* The numbers in words, for a log or a screen: define TESSLA_TEXTS before the header is included. */
#define TESSLA_EACH_TEXT(X) \
    X(0, "done") \
    X(1, "the plan text is longer than 4096 bytes") \
    X(2, "a line of the plan has the wrong key or form, is missing, or bytes are left over") \
    X(3, "streams is 0 or above what the state has room for: 32 in 12288 bytes, 64 in 20480") \
    X(4, "no operator has this name") \
    X(5, "an unused field is not 0, an argument names a stream that is not there, or an input is marked out=1") \
    X(6, "a cycle without the first argument of a last or a delay") \
    X(7, "the stream is not there, or is no input") \
    X(8, "too early: the input is already known past this stamp") \
    X(9, "the input holds 16 events that somebody waits for") \
    X(10, "progress past 4294967296") \
    X(11, "move, missing: no such stream; move also: it is an input") \
    X(12, "move: the equation cannot move now") \
    X(13, "collect: no such stream, or it is no output") \
    X(14, "collect: nothing waits") \
    X(15, "the buffer is no state of this engine") \
    X(17, "registers: the block is not 24 bytes long, this byte of it cannot be written, or the command is not 1, 2 or 3") \
    X(18, "a window is not 1 to 64 events wide, or the plan has more than eight windows") \
    X(19, "plan text: the lent buffer is shorter than the text of this plan")

static inline const char *tessla_text(uint32_t number) {
    switch (number) {
#define TESSLA_CASE(n, text) \
    case n: return text;
        TESSLA_EACH_TEXT(TESSLA_CASE)
#undef TESSLA_CASE
    default: return "no number of this engine";
    }
}
#endif

#ifdef __cplusplus
}
#endif

#endif

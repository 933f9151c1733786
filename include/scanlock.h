/*
 * scanlock.h - scan lock of the stage, C interface
 *
 * A stage has axes 1 to 8.  The modules of a backplane (presence.h), N from 2
 * to 16, lock axes for a scan, move them and let them go again.  While an axis
 * is locked or stopping, the joystick is dead; otherwise it is live.
 *
 * Each card keeps a scan lock of its own and tells it every event.  Cards that
 * follow the rules of presence.h, and tell events as WHEN TO TELL AN EVENT
 * below says, hold equal locks while the fault limit is kept (proved).  With
 * head bit 5 of the setup A CABLE THAT TEARS says which cards do.
 *
 * Nine functions:
 *
 *   scanlock_open       N                    -> image of a fresh scan lock
 *   scanlock_view       image, view          -> image; after every accepted
 *                                               presence_step, with the view
 *                                               that it shows
 *   scanlock_begin      image, module, axis  -> image; a module begins a lock
 *   scanlock_end        image, module, axis  -> image; a module ends a lock
 *   scanlock_start      image, module, axis  -> image; a holder starts a move
 *   scanlock_abort      image, module, axis  -> image; a module aborts a move
 *   scanlock_finished   image, axis          -> image; the axis reports its
 *                                               move finished
 *   scanlock_stopped    image, axis          -> image; the axis reports that
 *                                               it has stopped
 *   scanlock_joystick   image                -> whether the joystick is live
 *
 * A scan lock is its image, a block of bytes that the caller keeps.  Nothing
 * is kept between calls: the result of a call and the bytes it writes follow
 * from its arguments alone.  The functions use no heap, no static variables
 * and no C library calls.  A call takes at most 568 bytes of stack
 * (measured).
 *
 * They are re-entrant: calls may run at the same time, in interrupts too, but
 * an image that a call is writing must not be read or written, by another call
 * or by an interrupt, until the call has returned.  Swap the index of the
 * current image after that, in one store.  Calls that change one scan lock
 * must come one after the other, each on the image that the one before wrote;
 * if one interrupted another, what either of them did would be lost.  The code
 * is for x86-64, System V ABI; presence.h says under INTERRUPTS ON X86-64 what
 * a handler has to save.
 *
 *
 * WHEN TO TELL AN EVENT
 *
 * An event is every call below but scanlock_open, scanlock_view and
 * scanlock_joystick.  Interval k of a card lies after its own step k and
 * before its own step k + 1; interval 0 is after its opening and before its
 * step 1.  In each interval all cards have to tell the same events, in the
 * same order.  At the beginning of interval k, before any event of it, a card
 * hands its scan lock the view that the image of step k shows (scanlock_view of
 * presence_shown_view): the adopted one with head bit 5 of the setup, else the
 * local one.  Such a view is never refused (proved).
 *
 * Cards with different read places (presence.h) make step k at different
 * times of round k, so in the middle of that round one card is in interval k
 * and another still in interval k - 1.  Therefore queue an event that comes in
 * during round k, and tell it after step k and before step k + 1.  The end of
 * round k, where a card with read place N first makes its step, is in interval
 * k of every card.
 *
 * Otherwise an event that is told when it comes, in the middle of a round
 * whose step strikes a card off, can be accepted by a card that has stepped
 * and refused by one whose view is still the old one, and then the joystick is
 * dead at the one and live at the other; no later round makes them equal.
 * examples/stage/stage.c shows it, and the queue that prevents it.
 *
 * To carry events from card to card is the caller's part.  Neither library
 * does it, and neither makes good for an event that got lost: a card that
 * misses one, or tells it in another interval or another order than the rest,
 * holds other locks than the rest.  Whatever carries events has to bring each
 * one to every card that follows the rules, or to none of them, all in the
 * same round and in one order.
 *
 *
 * A CABLE THAT TEARS
 *
 * With head bit 5 of the setup (include/presence.h, STANDS WITH A TORN CABLE)
 * locks go by the views that are adopted.  Cards that have never been out hold
 * equal locks however much is lost, on the conditions that are named there, and
 * of two parts of a torn cable at most one goes on to adopt.  A holder in the
 * other part leaves the adopted view in time, and so loses its locks there.
 *
 * A card that is out hands over the same view as before in every step, so its
 * locks stay, and its joystick tells nothing of the stage: it moves nothing,
 * and takes its joystick for dead.  When it opens its presence anew it goes on
 * from the scan lock of a card that is not out, of the same interval; if all
 * were out, open the scan locks of all cards together.
 *
 *
 * LOCKS AND MOVES
 *
 * A module begins locks on an axis that nobody else holds, up to 8 deep on
 * each axis.  An end ends the innermost of them; the outer one is restored.
 * A holder that is not in the view handed last loses all its locks for good:
 * they do not come back if the module is in a later view.  A module that has
 * returned to the view may begin new ones, once that view is handed over.
 *
 * Whoever holds an axis may start a move on it.  An axis has at most one
 * unfinished move: a start during it joins it, also if another module started
 * it.  A finish report ends it.  Neither an end nor a lost lock stops it.
 *
 * An abort by any module in the view during an unfinished move makes the axis
 * stopping.  On a stopping axis a finish report changes nothing, and begin,
 * end and start are refused.  The stop report ends the stopping, the move and
 * every lock on the axis.
 *
 * An abort or a finish report without an unfinished move, and a stop report on
 * an axis that is not stopping, are accepted and change nothing.
 *
 * The joystick is live exactly if there is no lock that was neither ended nor
 * lost, and no axis is stopping.  An unfinished move alone does not make it
 * dead.
 *
 *
 * IMAGE: 9 words of 32 bits, big-endian
 *
 *   word   content
 *   0      20..16 N; 15..0 the view handed last
 *   a      axis a, a = 1..8: 12..8 the holder, 0 for none; 7..4 the depth;
 *          1 a move is unfinished; 0 stopping
 *
 * Bits that are not named are 0.  A fresh scan lock has a full view and
 * nothing in its axes.  An image may be stored and taken back: every function
 * tests the image it is given.  A card that goes on from a stored image hands
 * over the view of its presence image first.  A card that opens its scan lock
 * anew while others hold locks knows nothing of those, and so holds other
 * locks than the rest: open the scan locks of all cards together.  A card that
 * lost its state and comes back to the views while there are locks or moves
 * therefore goes on from another card's image, of the same interval; to carry
 * it is the caller's part.
 *
 *
 * ANSWERS
 *
 * number is 0 if the call is accepted.  Otherwise it is refused and writes
 * nothing, not even a part of the output.  Of several reasons the first of the
 * table is answered.
 *
 *   No.  Refused because                                    Index
 *   ---  -------------------------------------------------  ----------------
 *    0   not refused                                        0
 *    1   image empty, or its length is no multiple of 4     0
 *    2   first word of the image wrong: N not 2..16, a bit  0
 *        of the view at N or above, or a bit set that must
 *        be 0; scanlock_open: N not 2..16
 *    3   image not of 9 words                               0
 *    8   wrong word of an axis: a bit set that must be 0;   its word, 1..8
 *        depth over 8; a holder without depth, or depth
 *        without a holder that is in the view; stopping
 *        without an unfinished move
 *    9   output not of 9 words                              0
 *   19   axis not 1..8; module not 1..N, or not in the      0
 *        view handed last; scanlock_view: a bit at N or
 *        above
 *   20   begin, end or start: the axis is held by another   0
 *        module, or is stopping
 *   21   begin: 8 deep already; end or start: no lock       0
 *
 * joystick is 1 if the joystick is live after the call, else 0.  A call that
 * is refused by 19, 20 or 21 answers as before the call, since it changes
 * nothing.  Where the image or the output is refused (1, 2, 3, 8, 9) it is 0.
 *
 *
 * POINTERS AND LENGTHS
 *
 * Each pointer must point to at least as many bytes as its length says.
 * Lengths count bytes; any length may be passed.  Length 0 is allowed, but the
 * pointer must still be a valid one, not NULL.  A block may stand at any
 * address.  The output must not overlap the image: keep two and swap them
 * after an accepted call.  An accepted call but scanlock_joystick writes all
 * 9 words of the output.
 */
#ifndef SCANLOCK_H
#define SCANLOCK_H

#include <stddef.h>
#include <stdint.h>

#ifdef __cplusplus
extern "C" {
#endif

/* Number of axes, and how deep locks nest on each. */
#define SCANLOCK_AXES 8u
#define SCANLOCK_MAX_DEPTH 8u

/* Length of an image in bytes. */
#define SCANLOCK_IMAGE_BYTES 36u

/* The answer numbers by name; the table is above. */
#define SCANLOCK_ACCEPTED 0u
#define SCANLOCK_NO_WHOLE_WORDS 1u
#define SCANLOCK_NO_HEAD 2u
#define SCANLOCK_WRONG_LENGTH 3u
#define SCANLOCK_WRONG_AXIS_WORD 8u
#define SCANLOCK_WRONG_BUFFER 9u
#define SCANLOCK_OUT_OF_RANGE 19u
#define SCANLOCK_TAKEN 20u
#define SCANLOCK_WRONG_DEPTH 21u

typedef struct scanlock_answer {
    uint32_t number;   /* 0 accepted, else the reason for the refusal */
    uint32_t index;    /* word index, see the table; 0 if accepted */
    uint32_t joystick; /* 1 if the joystick is live after the call */
} scanlock_answer;

/*
 * Opens a scan lock: a full view, no lock, no move.
 *   n              number of modules, 2..16
 *   out, out_len   output, SCANLOCK_IMAGE_BYTES
 * Order of the checks: 2, 9.
 */
scanlock_answer scanlock_open(uint32_t n, uint8_t *out, size_t out_len);

/*
 * Hands over the view, right after each accepted presence_step:
 * presence_shown_view of the image that it wrote.  Holders that are not in it
 * lose their locks.
 *   image, image_len   the scan lock, SCANLOCK_IMAGE_BYTES
 *   view               module j is bit j-1
 *   out, out_len       output, SCANLOCK_IMAGE_BYTES
 * Order of the checks: 1, 2, 3, 8 (image), 9 (output), 19.
 */
scanlock_answer scanlock_view(const uint8_t *image, size_t image_len,
                              uint32_t view, uint8_t *out, size_t out_len);

/*
 * A module begins a lock on an axis, ends its innermost one, or starts a move.
 *   image, image_len   the scan lock, SCANLOCK_IMAGE_BYTES
 *   module             the module's number, 1..N
 *   axis               1..8
 *   out, out_len       output, SCANLOCK_IMAGE_BYTES
 * Order of the checks: 1, 2, 3, 8 (image), 9 (output), 19, 20, 21.
 */
scanlock_answer scanlock_begin(const uint8_t *image, size_t image_len,
                               uint32_t module, uint32_t axis,
                               uint8_t *out, size_t out_len);
scanlock_answer scanlock_end(const uint8_t *image, size_t image_len,
                             uint32_t module, uint32_t axis,
                             uint8_t *out, size_t out_len);
scanlock_answer scanlock_start(const uint8_t *image, size_t image_len,
                               uint32_t module, uint32_t axis,
                               uint8_t *out, size_t out_len);

/*
 * A module aborts the move of an axis, whoever holds it.
 * Arguments as above.
 * Order of the checks: 1, 2, 3, 8 (image), 9 (output), 19.
 */
scanlock_answer scanlock_abort(const uint8_t *image, size_t image_len,
                               uint32_t module, uint32_t axis,
                               uint8_t *out, size_t out_len);

/*
 * The axis reports its move finished, or that it has stopped after an abort.
 *   image, image_len   the scan lock, SCANLOCK_IMAGE_BYTES
 *   axis               1..8
 *   out, out_len       output, SCANLOCK_IMAGE_BYTES
 * Order of the checks: 1, 2, 3, 8 (image), 9 (output), 19.
 */
scanlock_answer scanlock_finished(const uint8_t *image, size_t image_len,
                                  uint32_t axis, uint8_t *out, size_t out_len);
scanlock_answer scanlock_stopped(const uint8_t *image, size_t image_len,
                                 uint32_t axis, uint8_t *out, size_t out_len);

/*
 * Whether the joystick is live.
 *   image, image_len   the scan lock, SCANLOCK_IMAGE_BYTES
 * Order of the checks: 1, 2, 3, 8.
 * Writes nothing.
 */
scanlock_answer scanlock_joystick(const uint8_t *image, size_t image_len);

#ifdef __cplusplus
}
#endif

#endif

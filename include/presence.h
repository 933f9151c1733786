/*
 * presence.h - presence of modules on the stage backplane, C interface
 *
 * A backplane has N modules, N from 2 to 16, numbered 1 to N.  Each module
 * sends one word a round on the bus, or two (see STANDS WITH A TORN CABLE).
 * Each module makes one step a round and learns from it which modules were
 * healthy and which still count as members (the view).
 *
 * Eight functions of a module:
 *
 *   presence_check_setup   tests a setup
 *   presence_open          setup and own number  -> image of a fresh module
 *   presence_step          image and one read    -> image after the step
 *   presence_save          image                 -> the same image, tested
 *   presence_change        image and new limits  -> image in which they wait
 *   presence_outgoing      image                 -> word to put on the bus
 *   presence_outgoing_view image                 -> second word to put there
 *   presence_read_cause    N and one bus word    -> why it is not heard
 *
 * Five more for a module whose host reads its presence from a register page:
 *
 *   presence_page_open       presence_open, and writes the page
 *   presence_page_step       presence_step, and brings the page up to date
 *   presence_page_read       a word of the page, for the host
 *   presence_page_write      the host's write of flags or enable
 *   presence_page_interrupt  whether the interrupt to the host is on
 *
 * All are in libgirmaut.a (make library); libcalls.a (harness/staticlib calls)
 * has the first eight alone.
 *
 * A module's state is its image, a block of bytes that the caller keeps.
 * Nothing is kept between calls: the result of a call and the bytes it writes
 * follow from its arguments alone.  The functions use no heap, no static
 * variables and no C library calls.  With counts and with fading (see SETUP),
 * with head bit 5 and without, an accepted presence_step takes at most 928
 * bytes of stack (measured, for N = 2 and 16) and a refused one 1,144,
 * presence_page_step 1,056 and 1,224, presence_page_open 424, presence_change
 * 328, presence_open 312, presence_save 264, presence_outgoing and
 * presence_outgoing_view 232; no other call takes more than 56.
 *
 * Instructions of an accepted presence_step and presence_page_step (page), the
 * most that were counted in quiet and loud rounds and in rounds in which
 * modules outside the view count or return, with every l at N and with others.
 * They do not grow steadily with N: with counts 3 modules take more than 4 and
 * 8, 5 to 7 more than 8, 10 and 11 more than 12, 13 to 15 more than 16; with
 * fading 6 and 7 more than 8, 14 and 15 more than 16.
 *
 * With counts:
 *
 *    N   step   page        N   step   page        N   step   page
 *    2  1,151  1,323        7  2,012  2,245       12  1,891  2,097
 *    3  1,357  1,555        8  1,337  1,517       13  2,288  2,521
 *    4  1,213  1,367        9  1,768  1,975       14  2,503  2,762
 *    5  1,589  1,770       10  1,976  2,209       15  2,709  2,994
 *    6  1,806  2,013       11  2,182  2,441       16  2,028  2,259
 *
 * With fading:
 *
 *    N   step   page        N   step   page        N   step   page
 *    2  1,103  1,276        7  2,258  2,492       12  2,786  2,993
 *    3  1,357  1,556        8  1,937  2,118       13  3,132  3,366
 *    4  1,427  1,582        9  2,291  2,499       14  3,368  3,628
 *    5  1,773  1,955       10  2,501  2,735       15  3,615  3,901
 *    6  2,011  2,219       11  2,755  3,015       16  3,256  3,488
 *
 * With counts and a change of limits pending (see NEW LIMITS WITHOUT A STOP),
 * at N = 2, 4, 8 and 16: a step takes 1,263, 1,392, 1,584 and 2,441, with a
 * page 1,435, 1,546, 1,764 and 2,672; the step that applies the change 1,321,
 * 1,409, 1,638 and 2,546, with a page 1,558, 1,668, 1,893 and 2,895.
 *
 * With head bit 5 (see STANDS WITH A TORN CABLE), at N = 2, 4, 8 and 16, where
 * more than half of all view words are the same: with counts a step takes
 * 1,484, 1,591, 1,601 and 2,405, with fading 1,433, 1,798, 2,189 and 3,609.
 * Where no two are the same, which takes most: with counts 1,534, 1,808, 1,950
 * and 3,252, with a page 1,716, 1,972, 2,140 and 3,493; with fading 1,482,
 * 2,014, 2,534 and 4,448, with a page 1,665, 2,179, 2,725 and 4,690.
 *
 *
 * CALLS AT THE SAME TIME
 *
 * The functions are re-entrant: calls may run at the same time, and one may
 * interrupt another, if no block that one of them writes (output or page) is
 * read or written by another meanwhile.  That is:
 *
 *   - An image that a call is writing must not be read, by another call or by
 *     an interrupt, until the call has returned.  Until then the image that
 *     the call was given is the current one.
 *   - After an accepted step make the image that it wrote the current one in
 *     one store: of its index, declared volatile.  An interrupt then finds the
 *     old image whole or the new one whole.
 *   - The step after that writes the old image again.  Code that reads images
 *     and can be interrupted by steps must be done by then, or hold them off.
 *   - Calls with the same page must not overlap in time.  Mask the interrupt
 *     in which the host's accesses are served during presence_page_step, and
 *     the step during an access: otherwise a flag could be lost, a cleared one
 *     come back, or the host read the health of one round and the view of
 *     another.
 *
 *
 * INTERRUPTS ON X86-64
 *
 * The library is code for x86-64 by the System V ABI.  It uses SSE2 registers
 * (no AVX, no x87, no MMX) and the red zone, the 128 bytes below the stack
 * pointer (both seen in the code of libgirmaut.a).  So SSE must be switched on
 * (CR0.EM 0, CR4.OSFXSR 1), and of interrupts is asked what is asked with any
 * such code:
 *
 *   - A handler that makes a call first saves what the ABI lets a function
 *     change: rax, rcx, rdx, rsi, rdi, r8 to r11, xmm0 to xmm15 and MXCSR
 *     (fxsave64 saves the last two).  It clears the direction flag (cld), has
 *     the stack pointer at a multiple of 16 when it calls, and as much stack
 *     as the call takes.  gcc's attribute interrupt saves the general
 *     registers alone.
 *   - A handler that makes no call, but can come while one runs, saves
 *     whatever it changes itself, vector registers included.
 *   - No handler that can come while a call runs may use the 128 bytes below
 *     the interrupted stack pointer, and the processor itself writes there if
 *     it stays on that stack.  Give such interrupts a stack of their own (an
 *     entry of the interrupt stack table).
 *
 * Under Linux the kernel sees to all of this, for signal handlers too.
 *
 * With fading (see SETUP) a step computes scores in doubles, by SSE2.  Cards
 * hold the same bits only if all of them round alike.  So in a step MXCSR has
 * to hold what the ABI gives a program at its start, 0x1F80 (bits 5..0, the
 * flags, may be set): rounding to nearest, exceptions masked, FZ and DAZ off.
 * A handler that makes a step loads this first (ldmxcsr).  A program must not
 * be linked with gcc's -ffast-math or -Ofast, which switch FZ and DAZ on at its
 * start.
 *
 *
 * WORDS, VECTORS
 *
 * All byte blocks are sequences of 32-bit words, big-endian: the first byte
 * of a word holds bits 31..24.  Bits 31..28 are the kind of the word, except in
 * the two halves of a double.  Bits that the tables below do not name must be
 * 0.  A block may stand at any address; no alignment is asked.
 *
 * In a vector (health, view, controller, syndrome, row) module j is bit j-1.
 * A row is the syndrome that a module sent: bit j-1 is 1 if the sender found
 * module j good.
 *
 *
 * SETUP: the same for all modules of a backplane
 *
 * A setup has one of two forms, which differ in how a card leaves the view (see
 * HOW A CARD LEAVES AND COMES BACK).  The kind of word 1 tells which: 2 for
 * counts, 0 for fading.  An image has the form of its setup.
 *
 * Counts, N+3 words:
 *
 *   word      kind  content
 *   0         1     27..8 return limit Q, 0..1,000,000 (0: never);
 *                   5 partitionable (see STANDS WITH A TORN CABLE);
 *                   4..0 N, 2..16
 *   1         2     penalty limit P, 1..1,000,000
 *   2         3     reward limit R, 1..8,000,000
 *   2+j       4     module j, for j = 1..N in this order:
 *                   27..23 j; 22 send mark; 21..17 read place l, 0..N;
 *                   16..0 criticality, 1..100,000
 *
 * Fading, N+6 words:
 *
 *   word      kind  content
 *   0         1     as above
 *   1         0     nothing: the word is 0x00000000
 *   2, 3      -     factor, a double, from 0.0 to 1.0
 *   4, 5      -     limit, a double, above 0.0 and at most 1,000,000.0
 *   5+j       4     module j, as above; its criticality has to be in range too,
 *                   but counts nothing
 *
 * A double (IEEE 754 binary64) stands in two words: first its high half, bits
 * 63..32, then its low half.  Minus zero counts as negative.
 * presence_fading_front writes words 0 to 5 of a fading setup.  Where the bytes
 * have to be constants, some doubles are
 *
 *   0.5   0x3FE00000 0x00000000        1.0   0x3FF00000 0x00000000
 *   0.9   0x3FECCCCC 0xCCCCCCCD        3.0   0x40080000 0x00000000
 *   0.99  0x3FEFAE14 0x7AE147AE       10.0   0x40240000 0x00000000
 *
 * The read place l says when in the round the module takes its read and makes
 * its step: after the words of modules 1..l of this round have come in and
 * before those of l+1..N.  With l = N this is the end of the round, with
 * l = 0 its beginning.
 *
 * The send mark says that the module makes its step before it sends in the
 * same round, and sends the word that this step hands out.  So the mark is
 * allowed only with l below the module's own number, and never on module 1.
 * A module without the mark sends in each round the word that its step of the
 * round before handed out; in round 1 the word of the opened image.
 *
 *
 * IMAGE: 5N+7 words with counts, 5N+10 with fading; with counts and a pending
 * change (see NEW LIMITS WITHOUT A STOP) 6N+9; with head bit 5 N+4 more
 *
 *   counts    fading     kind  content
 *   0..N+2    0..N+5           the setup
 *   N+3       N+6        10    20..16 own number, 15..0 view
 *   N+3+j     N+6+j      11    previous read, j = 1..N: 27..23 j; 22 heard;
 *                              15..0 row (0 if not heard)
 *   2N+4      2N+7       12    15..0 syndrome of the latest step
 *   2N+5      2N+8       12    15..0 syndrome of the step before
 *   2N+5+j    none       13    27..23 j; 20..0 penalty of j
 *   3N+5+j    none       14    27..23 j; 22..0 reward of j
 *   none      2N+7+2j,   -     score of j, a double: high half, low half
 *             2N+8+2j
 *   4N+5+j    4N+8+j     15    27..23 j; 19..0 return count of j: below Q; 0
 *                              while j is in the view, and where Q is 0
 *   5N+6      5N+9       -     rounds left until the pending change, 1..1,000;
 *                              0 if none is pending, so always with fading
 *   and only while a change is pending
 *   5N+7      none       2     its penalty limit P
 *   5N+8      none       3     its reward limit R
 *   5N+8+j    none       4     module j as in the setup, with its new
 *                              criticality
 *   and only with head bit 5, at the end; b is 5N+7, with fading 5N+10, with a
 *   pending change 6N+9
 *   b+j-1     b+j-1      10    view word of module j in the latest read, as it
 *                              came; 0 (all 32 bits) if it was missing
 *   b+N       b+N        -     the local view, as in word N+3 (fading N+6)
 *   b+N+1     b+N+1      -     the local view before the latest step
 *   b+N+2     b+N+2      -     the adopted view
 *   b+N+3     b+N+3      -     1 if the card has taken itself out, else 0
 *
 * So in a fading image the view stands three words later: read it by
 * PRESENCE_FADING_VIEW there, by PRESENCE_VIEW in an image with counts.  With
 * head bit 5 this is the local view; presence_shown_view reads the adopted one.
 *
 * A fresh image has all modules in the view, all rows heard and all ones,
 * both syndromes all ones, all counters 0, all scores 0.0 and no pending
 * change.  With head bit 5 every view is full, those in the view words too, and
 * the card is not out.
 *
 *
 * HOW A CARD LEAVES AND COMES BACK
 *
 * A module in the view whose health is 0 in a step is charged.
 *
 * With counts a charge makes its penalty grow by its criticality, and its
 * reward becomes 0.  Above P it leaves the view.  With health 1 and a penalty
 * its reward grows by 1; at R both become 0.
 *
 * With fading a charge adds 1.0 to its score, whatever its criticality is.
 * With health 1 its score is multiplied by the factor.  Each result is rounded
 * once, to the nearest double.  At or above the limit it leaves the view, and
 * its score stays as it is while it is outside.  So the score is the number of
 * its charges, where a charge counts the less the more good rounds came after
 * it.  With factor 1.0 it is exactly the number of charges since the opening or
 * the last return, with 0.0 the number since the last good round in the view.
 * presence_score reads it.
 *
 * A module outside the view counts the steps running in which its health is 1.
 * A health of 0 makes the count 0 again.  At Q it returns: it is in the view
 * that this step leaves, with count 0, and votes from the next step on.  With
 * Q = 0 it never returns.  The count is in the image, so a saved one goes on
 * where it was.
 *
 *   - With counts it returns with penalty P and reward 0.  So the next bad
 *     round puts it out at once, until R good ones in the view have cleared its
 *     penalty.
 *   - With fading it returns with score 0.0, as if it were fresh.  So the next
 *     bad round puts it out only if the limit is 1.0 or less.
 *
 * Choosing factor and limit.  From score 0.0 as many bad rounds running put a
 * card out as the limit says, rounded up to a whole number.  The factor says
 * how fast charges fade.  The good rounds in which a score is halved, and their
 * time at 2.5 ms a round:
 *
 *     factor    rounds       time
 *     0.5            1     2.5 ms
 *     0.9          6.6      16 ms
 *     0.99          69     172 ms
 *     0.99827      400        1 s
 *
 * To halve it in h good rounds the factor is 0.5^(1/h).  If a card has a bad
 * round after every g good ones, its score after the bad one tends to
 * 1 / (1 - factor^g).  With a limit clearly above this it stays in the view,
 * however long that goes on; with one clearly below it leaves.
 *
 * For example factor 0.5 and limit 3.0.  Three bad rounds running, 7.5 ms, put
 * a card out: its score is 1.0, 2.0, 3.0.  A bad round every other round never
 * does: 1.0, 0.5, 1.5, 0.75, 1.75 and so on, which tends to 2.0 after a bad
 * round.  Two bad ones of every three do, in the fifth round: 1.0, 2.0, 1.0,
 * 2.0, 3.0.
 *
 * What the others see.  Let r be the first round, after the card has left
 * their views, from which on all of them hear it.  They have its health for
 * that round in the step of round r + 1 if every l is N, else of round r + 3,
 * and it is 1 from then on: outside the view its word has only to be heard.  It
 * is back in their views after the step of round r + Q, or r + Q + 2.  That is
 * Q + 1 rounds after the beginning of round r, or Q + 3; at 2.5 ms a round:
 *
 *         Q   every l is N         else
 *         1         5.0 ms      10.0 ms
 *        40       102.5 ms     107.5 ms
 *       400     1,002.5 ms   1,007.5 ms
 *     4,000    10,002.5 ms  10,007.5 ms
 *
 * What the card does.  One that was not heard, but made the step of every
 * round, has nothing to do.  It holds the same view and counters as the others,
 * and the same bits of each score, all along, its own return included, while
 * the fault limit is kept (proved).
 *
 * One that lost its state, or left a step out, opens anew (presence_open)
 * before the first round in which it sends, and then makes the step of every
 * round with what it hears.  It may do so in any round; nobody has to tell the
 * others.  They return it as said above.  What it holds itself is another
 * matter, since it knows nothing of the rounds before:
 *
 *   - Its view is full when it opens, though the others hold it outside; and it
 *     may have a card in its view that is outside theirs.  So it should drive
 *     nothing by its view before it is back.  If it hears what the others hear,
 *     it is back once it has made Q + 1 steps (every l is N), or Q + 3, and its
 *     own health was 1 in the last Q of them.
 *   - In its first step, or in up to three (not every l is N), the others'
 *     words say that it was not heard.  It charges itself for that, and may so
 *     leave its own view; then it returns there in the same step as in theirs.
 *   - If it opens while it is still in the others' views, its first words,
 *     which may differ from theirs, can be held against it.
 *   - With counts it holds what the others hold R good rounds after its return,
 *     if no other card has a penalty or is outside.
 *   - With fading its scores differ from the others' where a card was charged
 *     before it opened, and may differ in its own.  They fade alike, with a
 *     factor below 1.0: what is left of a score below 2^-53 is gone with the
 *     next charge, which makes it 1.0 everywhere.
 *
 * That cards agree is proved of cards that were opened before round 1 and made
 * every step since.  In the fault limit a card that opened anew counts as a
 * rule-breaker from its return on; while it is outside the view it counts only
 * in rounds in which they do not all hear it alike.
 *
 *
 * NEW LIMITS WITHOUT A STOP
 *
 * P, R and the criticalities can be changed while the modules make their steps,
 * with counts alone.  presence_change takes the image, a whole setup with the
 * new ones, and a lead from 1 to 1,000: with 1 the next step counts by the new
 * limits, with 2 the one after it, and so on.  At 2.5 ms a round a lead of 400
 * is one second.  It writes an image in which the change is pending, with the
 * lead as the rounds left.  This is the module's current image from then on.
 *
 * Each step leaves one round less.  The step from an image with one round left
 * applies the change.  Its vote and its syndrome go by the view as it was.
 * Then, before it counts,
 *
 *   - a module in the view whose reward is at or above the new R gets penalty 0
 *     and reward 0;
 *   - one in the view whose penalty is then above the new P leaves the view;
 *   - modules outside the view, those that just left among them, get reward 0,
 *     and a penalty of at least P + 1 and at most P + criticality, by the new
 *     ones.
 *
 * Return counts stay.  Then the round is counted by the new limits.  So with
 * health 1 a module that the change puts out has its first good round in this
 * step, and where Q is 1 it is back at once, with penalty P.  The image after
 * this step has the new setup and no pending change.
 *
 * Only one change can be pending.  Nothing else of a setup can be changed: N,
 * Q, head bit 5, read places and send marks have to be those of the image's
 * setup, and neither side may fade (23).  P, R and criticalities that are the
 * old ones are accepted.
 *
 * Lengths.  A change makes the image longer by N+2 words, and the step that
 * applies it writes the shorter one again.  The output of a step has the length
 * of the image after it:
 *
 *     rounds left in the     length of that image      output of the step
 *     image that is passed
 *     0                      PRESENCE_IMAGE_BYTES      PRESENCE_IMAGE_BYTES
 *     1                      PRESENCE_PENDING_         PRESENCE_IMAGE_BYTES
 *                            IMAGE_BYTES
 *     2 to 1,000             PRESENCE_PENDING_         PRESENCE_PENDING_
 *                            IMAGE_BYTES               IMAGE_BYTES
 *
 * So give both images of a module room for the longer one, and pass the lengths
 * that presence_image_bytes and presence_stepped_bytes tell of the current one.
 * presence_rounds_left tells the rounds left.  With head bit 5 each of these
 * lengths is PRESENCE_VIEWS_BYTES more, which the two functions count in.
 *
 * On a whole backplane all modules have to change in the same round.  So offer
 * the same setup with the same lead to every module between the same two of its
 * steps: for some round k, to each after its step of round k-1 (for k = 1 its
 * opening) and before its step of round k.  The step of round k+lead-1 then
 * applies it at all of them.  With a lead of many rounds there is time to see
 * whether all have accepted.  Modules that take every change so go on to hold
 * the same view and the same counters, before the change and after it, while
 * the fault limit is kept (proved).
 *
 *   - A module that has not taken what the others took, or has taken other
 *     words, no longer follows the rules: for the others it counts as a
 *     rule-breaker, like one that leaves a step out.  From the round of the
 *     change on its view and counters may differ from theirs.
 *   - While the change is pending at the others, such a module can be offered
 *     the same setup with as many rounds as they have left.  It then changes in
 *     the same round and holds what they hold (tested; what is proved asks for
 *     the same lead between the same two steps).  One that is opened meanwhile,
 *     from the old setup, is offered it in the same way.
 *   - Afterwards open it anew, from the new setup.  HOW A CARD LEAVES AND COMES
 *     BACK says what it does then.
 *   - A pending change can not be taken back.  After it has been applied, offer
 *     another one.
 *   - A refused offer changes nothing.
 *
 * A saved image keeps the pending change and its rounds left.  The register
 * page shows of a change what it does to the view.
 *
 *
 * STANDS WITH A TORN CABLE
 *
 * Where the cards of a stand hang on a cable and it tears, the cards of each
 * part strike those of the other off, and each part takes itself for the whole.
 * A setup with head bit 5 is partitionable: of two parts at most one goes on,
 * the one with more than half of all N cards, and the cards of the other know
 * that they are out.  Without head bit 5 nothing of this section exists.
 *
 * Two words a round.  Each module also sends its view as a second word of kind
 * 10.  presence_outgoing_view tells it, from the same image and for the same
 * round and slot as presence_outgoing tells the first.  The view that a module
 * counts by and sends is its local view.
 *
 * A read has 2N words, PRESENCE_PARTITIONABLE_READ_BYTES: the N words of READ
 * below, then the view words that came with them, that of module j as word
 * N+j-1.  One controller bit covers both words of a module.  A view word is
 * missing if this bit is 0, it is not of kind 10, or one of its bits 27..N is
 * 1.  Each of the two words can be missing by itself: where only one of them
 * came in, set the bit and put 0 in the place of the other.  No word makes a
 * call refused.  Causes are those of the first words alone.
 *
 * A step votes on the view words of one round, each with its sender's local
 * view after the step of the round before; the module's own word is among them,
 * as its controller heard it.  It is this round if every l is N, else the round
 * before this one.  For each module the value, in the view or not, that more
 * than half of all N modules carry is taken: 2 of N = 2 or 3, 3 of 4 or 5, 9 of
 * 16.  It is more than half of all, not of those heard or in the view.
 *
 *   - If every module has such a value, these values are the adopted view.
 *   - If one has none, nothing is adopted, and the card takes itself out.  It
 *     stays out, whatever it hears later, and its adopted view stays as it was.
 *
 * A card that is out still makes its steps and sends both words.  Its local
 * view, health and counters go on, and its vote counts.  Saving keeps that it
 * is out.  It comes in again only by opening anew (presence_open).
 *
 * Which view is which.  All rules go by the local view, and so does flag 1 of
 * the page; PRESENCE_VIEW and PRESENCE_FADING_VIEW read it.  Word 1 and flag 0
 * of the page are of the adopted view, and the scan lock is handed it:
 * presence_shown_view reads it, and without head bit 5 reads the local one, so
 * that a card may always act on it.  presence_is_out tells whether a card is
 * out; the page does not.  While all cards follow the rules and hear one
 * another, the adopted view is the local view of one step before if every l is
 * N, else of two steps before.
 *
 * Lengths.  An image has N+4 words more at its end, PRESENCE_VIEWS_BYTES.
 * presence_opened_bytes and presence_changed_bytes tell how long the output of
 * an opening and of a change is, presence_read_bytes how long a read is;
 * presence_image_bytes and presence_stepped_bytes count the views in.  Any
 * image has room in PRESENCE_MAX_PENDING_IMAGE_BYTES and
 * PRESENCE_MAX_VIEWS_BYTES together.
 *
 * Two parts, for example five cards, P = 1 and criticality 1, every l N; the
 * cable tears between cards 3 and 4 before round 10.  Module 1 stands leftmost.
 *
 *     after    cards 1, 2, 3          cards 4, 5
 *     step     local    adopted       local    adopted
 *      9       11111    11111         11111    11111
 *     10       11111    11111         11111    11111   out
 *     11       11111    11111         11111    11111   out
 *     12       11100    11111         00011    11111   out
 *     13       11100    11100         00011    11111   out
 *
 * With two of four cards in each part no part has more than half: all are out,
 * and all open anew when the cable is whole again.
 *
 * What a card does.  Out, it drives nothing: its adopted view is an old one,
 * and the other part may drive what it drove.  When it hears more than half of
 * all cards again, it opens anew, as HOW A CARD LEAVES AND COMES BACK says,
 * from the setup that its image begins with; a pending change is lost with the
 * image and has to be offered again.  It should not wait: since it sends, it
 * comes back to the others' views after Q good rounds, or has never left them,
 * and they leave to it what it does not drive.  Opened anew it adopts what the
 * others adopt, if it hears enough of them, from its first step on if every l
 * is N, else from its second: in the first, up to l of the words that it votes
 * on are those of its opened image, which nobody sent.  Until then it drives
 * nothing.
 *
 * What is promised, of cards that follow the rules, were opened before round 1
 * and made every step since:
 *
 *   - No two of them adopt different views in a round, however much is lost, if
 *     in the round voted on no sender gives two of them different view words
 *     (proved).  The fault limit is not asked for.
 *   - Two of them that hear no common sender's view word in a round never both
 *     adopt from it (proved).
 *   - What is said elsewhere of health, local views and counters holds as it
 *     does without head bit 5, by the first words alone (proved).  A torn cable
 *     breaks the fault limit, since each part then hears itself alone; so the
 *     local views of its parts may differ.
 *
 * What is not promised: that anybody adopts.  If enough is lost all cards are
 * out, and one is out after a single round in which it heard too little.  Nor
 * that a card that is out, or opened later, shows what the others show.  Nor
 * that the adopted view is a true one where more than half of all cards, those
 * outside the view included, send a false one.
 *
 *
 * READ: N words; with head bit 5 2N words, these and then N view words
 *
 * Word j-1 is the latest word that came in from module j, at the time of the
 * read: of this round for j <= l, of the round before for the others.  The
 * module's own word is among them, as its controller heard it.  Bit j-1 of
 * the argument controller is 1 if the controller calls this reception valid.
 * Module j is heard if this bit is 1, the word is of kind 5 and bits 27..N of
 * it are 0.  A word that is not heard may hold any bits; it never makes a
 * call refused.  Before round 1 all modules count as heard with the word
 * 0x50000000 with the N lowest bits set, and with head bit 5 with the view word
 * 0xA0000000 with the N lowest bits set.
 *
 * Why a word is not heard is its cause, the first of these that applies:
 *
 *   1   controller loss: its controller bit is 0
 *   2   wrong kind: its top four bits are not 5
 *   3   stray bits: one of its bits 27..N is 1
 *
 * and 0 if it is heard.  For a step, missing is missing: the cause decides
 * nothing in it.  It is for service, and is told on the page and by
 * presence_read_cause.
 *
 *
 * PAGE: 16 words, PRESENCE_PAGE_BYTES
 *
 *   offset  word  content
 *   0       0     health vector of the latest step; all ones when opened
 *   4       1     the module's view after the latest step or the opening; with
 *                 head bit 5 the adopted one
 *   8       2     flags: bit 0 the view changed, bit 1 somebody was charged
 *   12      3     enable
 *   16..28  4-7   causes of the latest read, one byte a module
 *   32..60  8-15  0
 *
 * A step sets flag 0 if the view that it writes to word 1 differs from what
 * word 1 of the page that it is lent holds, and flag 1 if a module has health 0
 * that was in the view (the local one) before the step and that no change
 * applied in it has put out.  Flags stay until the host clears them: a write of
 * word 2 clears the flags that are written as ones.  A write of word 3 is
 * stored whole.  A step leaves enable, words 8 to 15 and the other bits of word
 * 2 as they are.  The interrupt is on exactly while flags and enable share a
 * set bit.  So a flag is lost only by a write that names it, or when the page
 * is opened anew; and while a flag is set the interrupt is on whenever its bit
 * of enable is set, be it set before the flag or later.
 *
 * Words 4 to 7 hold four modules each, one byte a module, module 1 topmost:
 * the cause of module j stands in word 4+(j-1)/4, in bit 31-8*((j-1)%4) and the
 * seven below it, which is byte 15+j of the page.  Modules above N have 0.
 * Every accepted step writes all four words, with the causes of the read that
 * it was given, as it came: the word of module j that this read holds is of
 * this round for j <= l and of the round before for the others.  So these are
 * later words than those that the health vector judges (see presence_step).
 * Opened, all causes are 0.  An image keeps no causes.
 *
 *
 * ANSWERS
 *
 * number is 0 if the call is accepted.  Otherwise the call is refused: it
 * writes nothing, not even a part of the output or of the page, and answers
 * health 0, word 0, or cause 0 and row 0.  Of several reasons the lowest number
 * is answered, but presence_change has an order of its own; 22 stands in the
 * place of 4, here and in every order of checks below.
 * index is a word index from 0 in the setup or image that was passed, and
 * names the first word that is wrong for this number.  Of presence_change it
 * counts in the image for what is wrong there, else in the new setup.
 *
 *   No.  Refused because                                    Index
 *   ---  -------------------------------------------------  -----------------
 *    0   not refused                                        0
 *    1   setup or image empty, or its length is no          0
 *        multiple of 4
 *    2   first word no head: kind not 1, N not 2..16, Q     0
 *        over 1,000,000, or one of bits 7..6 set; n of
 *        presence_read_cause not 2..16
 *    3   setup not of N+3 words; image too short for its    0
 *        rounds-left word, or not of 5N+7 words where that
 *        is 0 and 6N+9 where it is not; where word 1 is of
 *        kind 0, not of N+6, and 5N+10 or 6N+12; with head
 *        bit 5 the image not of N+4 words more
 *    4   limit word wrong: kind (word 1 of neither 2 nor    1 (P) or 2 (R)
 *        0), or P or R out of range
 *    5   module word wrong: kind, number not in turn, l     its word,
 *        over N, criticality out of range                   3..N+2;
 *                                                           fading 6..N+5
 *    6   send mark on module 1, or on a module whose l is   its word,
 *        its own number or more                             as with 5
 *    7   own number not 1..N                                presence_open: 0
 *        (in an image tested only if that word is of        image: N+3;
 *        kind 10)                                           fading N+6
 *    8   wrong word in the part of an image after the       its word,
 *        setup: kind, order or number of a word; a bit set  N+3..7N+12; fading
 *        that must be 0; a vector with a bit at N or        N+6..6N+13 (view
 *        above; a row that is not 0 though not heard;       against penalty:
 *        penalty over P + criticality; reward R or more,    the penalty word;
 *        or over 0 with penalty 0; a module in the view     reward with
 *        with penalty over P, or out of it without; a       penalty 0: the
 *        return count of Q or more, or over 0 for a module  reward word;
 *        in the view or where Q is 0; a score that is       view against
 *        negative, infinite or no number (NaN); a module    return count:
 *        in the view with a score at or above the limit,    the count's;
 *        or out of it with one below; rounds left over      score: its high
 *        1,000, or not 0 with fading; a word of a pending   half; the two
 *        change that is wrong as a limit or a module word,  local views:
 *        or whose l or send mark is not the setup's; with   the later word)
 *        head bit 5 a view word neither 0 nor of kind 10
 *        with view bits alone, a local view that is not
 *        that of the kind 10 word, or the last word over 1
 *    9   read not of N words, with head bit 5 not of 2N;    0
 *        output not of the words of the image that the
 *        call would write, or page not of 16 (a length
 *        that is no multiple of 4 included)
 *   10   controller has a bit at N or above; that of        0
 *        presence_read_cause is not 0 or 1
 *   11   retired: no call answers it; every word that a
 *        module hands out is one that receivers hear, and
 *        no view word that it hands out is missing by its
 *        form
 *   17   byte offset that is not the start of one of the    0
 *        page's 16 words
 *   18   write outside words 2 and 3 of the page            0
 *   22   fading setup wrong, in the place of 4: a bit set   1, 2 (factor's
 *        in word 1; factor negative, over 1.0 or no number  high half) or
 *        (NaN); limit not above 0.0, over 1,000,000.0 or    4 (limit's)
 *        no number
 *   23   new setup differs in more than P, R and            0
 *        criticalities: in N, Q, head bit 5, a read place
 *        or a send mark; or it or the image is fading
 *   24   a change is pending, or lead is not 1..1,000       0
 *
 * Other numbers do not occur in these functions.
 *
 *
 * POINTERS AND LENGTHS
 *
 * Each pointer must point to at least as many bytes as its length says.
 * Lengths count bytes.  Any length may be passed; a wrong one is refused with
 * 1, 3 or 9.  Length 0 is allowed everywhere, but the pointer must still be a
 * valid one: pass any valid pointer, for example that of an array, not NULL.
 *
 * Output and page must not overlap an input of the same call, that is the
 * setup, the image or the read, nor one another.  Keep two images and swap
 * them after an accepted step or change; the page stays where it is.
 * Inputs are only read, and may overlap one another.
 *
 * An accepted call of presence_open, presence_step, presence_save or
 * presence_change, with a page or without, writes all words of the output.
 * presence_page_open writes all 16 words of the page, presence_page_step words
 * 0 to 2 and 4 to 7, presence_page_write the one word.
 */
#ifndef PRESENCE_H
#define PRESENCE_H

#include <stddef.h>
#include <stdint.h>

#ifdef __cplusplus
extern "C" {
#endif

/* Largest N. */
#define PRESENCE_MAX_MODULES 16u

/* Lengths in bytes for n modules with counts, setup n+3 and image 5n+7 words,
   6n+9 while a change is pending, and with fading, setup n+6 and image 5n+10
   words.  A read has n words with both.  With head bit 5 each of these images
   has n+4 words more, PRESENCE_VIEWS_BYTES, and a read has 2n. */
#define PRESENCE_SETUP_BYTES(n) (4u * ((size_t)(n) + 3u))
#define PRESENCE_IMAGE_BYTES(n) (4u * (5u * (size_t)(n) + 7u))
#define PRESENCE_PENDING_IMAGE_BYTES(n) (4u * (6u * (size_t)(n) + 9u))
#define PRESENCE_FADING_SETUP_BYTES(n) (4u * ((size_t)(n) + 6u))
#define PRESENCE_FADING_IMAGE_BYTES(n) (4u * (5u * (size_t)(n) + 10u))
#define PRESENCE_READ_BYTES(n) (4u * (size_t)(n))
#define PRESENCE_VIEWS_BYTES(n) (4u * ((size_t)(n) + 4u))
#define PRESENCE_PARTITIONABLE_READ_BYTES(n) (8u * (size_t)(n))

/* The same for N = 16.  A setup of either form has room in that with fading, an
   image of either form in that with a pending change; so it is for every N.
   Where head bit 5 may be set, an image of any form has room in the two lengths
   PENDING_IMAGE and VIEWS together. */
#define PRESENCE_MAX_SETUP_BYTES 76u
#define PRESENCE_MAX_IMAGE_BYTES 348u
#define PRESENCE_MAX_PENDING_IMAGE_BYTES 420u
#define PRESENCE_MAX_FADING_SETUP_BYTES 88u
#define PRESENCE_MAX_FADING_IMAGE_BYTES 360u
#define PRESENCE_MAX_READ_BYTES 64u
#define PRESENCE_MAX_VIEWS_BYTES 80u
#define PRESENCE_MAX_PARTITIONABLE_READ_BYTES 128u

/* Head bit 5, by which a setup is partitionable. */
#define PRESENCE_PARTITIONABLE 0x20u

/* The most rounds that a change may be ahead. */
#define PRESENCE_MAX_LEAD 1000u

/* The words of a fading setup before those of the modules, in bytes. */
#define PRESENCE_FADING_FRONT_BYTES 24u

/* Whether an accepted setup or image, given as a pointer to uint8_t, is of the
   fading form, and whether it is partitionable: 1 or 0. */
#define PRESENCE_IS_FADING(bytes) ((bytes)[4] >> 4 == 0)
#define PRESENCE_IS_PARTITIONABLE(bytes) \
    (((bytes)[3] & PRESENCE_PARTITIONABLE) != 0)

/* The page: its length, the offsets of its words, and the flags. */
#define PRESENCE_PAGE_BYTES 64u
#define PRESENCE_PAGE_HEALTH 0u
#define PRESENCE_PAGE_VIEW 4u
#define PRESENCE_PAGE_FLAGS 8u
#define PRESENCE_PAGE_ENABLE 12u
#define PRESENCE_PAGE_VIEW_CHANGED 1u
#define PRESENCE_PAGE_CHARGED 2u

/* The offset of the word with module j's cause, and the cause in that word. */
#define PRESENCE_PAGE_CAUSES(j) (16u + ((uint32_t)(j) - 1u) / 4u * 4u)
#define PRESENCE_CAUSE_IN(word, j) \
    ((uint32_t)(word) >> (24u - 8u * (((uint32_t)(j) - 1u) % 4u)) & 0xFFu)

/* The causes by name. */
#define PRESENCE_CAUSE_HEARD 0u
#define PRESENCE_CAUSE_CONTROLLER_LOSS 1u
#define PRESENCE_CAUSE_WRONG_KIND 2u
#define PRESENCE_CAUSE_STRAY_BITS 3u

/*
 * The local view in an accepted image of n modules, given as a pointer to
 * uint8_t: with counts bits 15..0 of word n+3, with fading of word n+6.  Each
 * is for images of its form alone.  Both use their arguments twice.  A card
 * acts on presence_shown_view, which without head bit 5 is this view.
 */
#define PRESENCE_VIEW(image, n)                              \
    (((uint32_t)(image)[PRESENCE_SETUP_BYTES(n) + 2u] << 8) | \
     (uint32_t)(image)[PRESENCE_SETUP_BYTES(n) + 3u])
#define PRESENCE_FADING_VIEW(image, n)                              \
    (((uint32_t)(image)[PRESENCE_FADING_SETUP_BYTES(n) + 2u] << 8) | \
     (uint32_t)(image)[PRESENCE_FADING_SETUP_BYTES(n) + 3u])

/* The answer numbers by name; the table is above. */
#define PRESENCE_ACCEPTED 0u
#define PRESENCE_NO_WHOLE_WORDS 1u
#define PRESENCE_NO_HEAD 2u
#define PRESENCE_WRONG_LENGTH 3u
#define PRESENCE_WRONG_LIMIT 4u
#define PRESENCE_WRONG_MODULE 5u
#define PRESENCE_WRONG_SEND_MARK 6u
#define PRESENCE_WRONG_OWN_NUMBER 7u
#define PRESENCE_WRONG_STATE 8u
#define PRESENCE_WRONG_BUFFER 9u
#define PRESENCE_WRONG_CONTROLLER 10u
#define PRESENCE_WRONG_OFFSET 17u
#define PRESENCE_WRONG_WRITE 18u
#define PRESENCE_WRONG_FADING 22u
#define PRESENCE_WRONG_CHANGE 23u
#define PRESENCE_WRONG_LEAD 24u

/* Answer of the functions that answer no presence_word or presence_cause. */
typedef struct presence_answer {
    uint32_t number; /* 0 accepted, else the reason for the refusal */
    uint32_t index;  /* word index, see the table; 0 if accepted */
    uint32_t health; /* after an accepted step the health vector, else 0 */
} presence_answer;

/* Answer of presence_outgoing, of presence_outgoing_view and of the host's
   functions on a page. */
typedef struct presence_word {
    uint32_t number; /* 0 accepted, else the reason for the refusal */
    uint32_t index;  /* word index, see the table; 0 if accepted */
    uint32_t word;   /* the word asked for, 0 if refused */
} presence_word;

/* Answer of presence_read_cause. */
typedef struct presence_cause {
    uint32_t number; /* 0 accepted, else the reason for the refusal */
    uint32_t index;  /* 0 */
    uint32_t cause;  /* 0 heard, 1 controller loss, 2 wrong kind, 3 stray bits;
                        0 if refused */
    uint32_t row;    /* the row of a word that is heard, else 0 */
} presence_cause;

/*
 * The functions.  Each takes modules with counts and modules with fading.  With
 * head bit 5 an image, and so the output, is PRESENCE_VIEWS_BYTES(N) longer
 * than said here, and a read has PRESENCE_PARTITIONABLE_READ_BYTES(N).
 */

/*
 * Tests a setup.
 *   setup, setup_len   the setup, PRESENCE_SETUP_BYTES(N); fading
 *                      PRESENCE_FADING_SETUP_BYTES(N)
 * Order of the checks: 1, 2, 3, 4, 5, 6.
 * Writes nothing.  Health is 0.
 */
presence_answer presence_check_setup(const uint8_t *setup, size_t setup_len);

/*
 * Opens a module: writes the image of a fresh one.
 *   setup, setup_len   the setup, PRESENCE_SETUP_BYTES(N); fading
 *                      PRESENCE_FADING_SETUP_BYTES(N)
 *   own                the module's own number, 1..N
 *   out, out_len       output, PRESENCE_IMAGE_BYTES(N); fading
 *                      PRESENCE_FADING_IMAGE_BYTES(N)
 * Order of the checks: 1, 2, 3, 4, 5, 6 (setup), 7 (own, index 0),
 * 9 (output).
 * Accepted: the output holds the fresh image.  Health is 0.
 * Refused: the output stays as it was.
 */
presence_answer presence_open(const uint8_t *setup, size_t setup_len,
                              uint32_t own, uint8_t *out, size_t out_len);

/*
 * Makes the step of one round.
 *   state, state_len   the image that the step before, the opening or a change
 *                      wrote, PRESENCE_IMAGE_BYTES(N); fading
 *                      PRESENCE_FADING_IMAGE_BYTES(N); while a change is
 *                      pending PRESENCE_PENDING_IMAGE_BYTES(N)
 *   read, read_len     the read of this round, PRESENCE_READ_BYTES(N)
 *   controller         bit j-1 is 1 if the controller calls the reception
 *                      from module j valid; bits at N or above must be 0
 *   out, out_len       output, PRESENCE_IMAGE_BYTES(N); fading
 *                      PRESENCE_FADING_IMAGE_BYTES(N); if more than one round
 *                      is left PRESENCE_PENDING_IMAGE_BYTES(N)
 *                      (presence_stepped_bytes tells it)
 * Order of the checks: 1, 2, 3, 4, 5, 6, 7, 8 (image), 9 (read and output),
 * 10 (controller).
 * Accepted: the output holds the image after the step, and health is the
 * health vector: bit j-1 is 1 if module j was healthy.  It judges the round
 * before this one if every l is N, else the one three rounds before this one.
 * A module outside the view of the image that is passed has no vote in this
 * step, and what its word says is not held against it; the others still vote
 * on it.  One that leaves the view in this step, by a change too, has voted in
 * it, one that returns in this step has not.
 * Refused: the output stays as it was, no step has been made, and the image
 * that was passed is still the current one.
 * That cards agree is proved of cards that make the step of every round, each
 * on the read of that round.  A card that leaves a step out no longer follows
 * the rules: for the others it counts as a rule-breaker from then on.  HOW A
 * CARD LEAVES AND COMES BACK says what it does.
 */
presence_answer presence_step(const uint8_t *state, size_t state_len,
                              const uint8_t *read, size_t read_len,
                              uint32_t controller,
                              uint8_t *out, size_t out_len);

/*
 * Tests an image and writes it to the output, word for word the same.  Serves
 * to put a state into a store that survives a restart, and to take it back
 * from there: an accepted image is one that a step may go on from.  An image
 * of another setup or another slot is accepted too: a card that goes on from a
 * stored image compares the setup and the own number (in the word after the
 * setup) itself.
 *   state, state_len   the image, PRESENCE_IMAGE_BYTES(N); fading
 *                      PRESENCE_FADING_IMAGE_BYTES(N); while a change is
 *                      pending PRESENCE_PENDING_IMAGE_BYTES(N)
 *   out, out_len       output, of the same length
 * Order of the checks: 1, 2, 3, 4, 5, 6, 7, 8 (image), 9 (output).
 * Health is 0.
 * Refused: the output stays as it was.
 */
presence_answer presence_save(const uint8_t *state, size_t state_len,
                              uint8_t *out, size_t out_len);

/*
 * Takes new limits: writes the image with a pending change.  NEW LIMITS WITHOUT
 * A STOP says when all modules of a backplane have to take it.
 *   state, state_len   the current image, PRESENCE_IMAGE_BYTES(N)
 *   setup, setup_len   the whole new setup, PRESENCE_SETUP_BYTES(N): that of
 *                      the image with other P, R and criticalities
 *   lead               which step counts by it, 1 for the next one, up to
 *                      PRESENCE_MAX_LEAD
 *   out, out_len       output, PRESENCE_PENDING_IMAGE_BYTES(N)
 * Order of the checks: 1, 2, 3, 4, 5, 6, 7, 8 (image), then 1, 2, 3, 4, 5, 6
 * (new setup), 23, 24, 9 (output).
 * Numbers 1 to 6 do not tell which of the two is wrong; presence_check_setup of
 * the new setup does.
 * Accepted: the output holds the image with the new words and lead rounds left.
 * It is the current one, and no step has been made.  Health is 0.
 * Refused: the output stays as it was, and the image that was passed is still
 * the current one.
 */
presence_answer presence_change(const uint8_t *state, size_t state_len,
                                const uint8_t *setup, size_t setup_len,
                                uint32_t lead, uint8_t *out, size_t out_len);

/*
 * The word handed out by the step, or the opening, that wrote this image: kind
 * 5 with the syndrome of the latest step, or of the step before it if the
 * module's own send mark is set.  A change leaves it as it was.
 *   state, state_len   the image, PRESENCE_IMAGE_BYTES(N); fading
 *                      PRESENCE_FADING_IMAGE_BYTES(N); while a change is
 *                      pending PRESENCE_PENDING_IMAGE_BYTES(N)
 * Order of the checks: 1, 2, 3, 4, 5, 6, 7, 8 (image).
 * Writes nothing.
 * With the send mark the word is to be sent in the round of that step,
 * without it in the round after.  So a module without the mark takes its word
 * for a round before it makes the step of that round (from the image of the
 * step before, or of the opening), and a module with the mark after it.
 * The bus carries the word as 32 bits.
 */
presence_word presence_outgoing(const uint8_t *state, size_t state_len);

/*
 * The view word handed out by the step, or the opening, that wrote this image:
 * kind 10 with the local view after that step, or with the local view before it
 * if the module's own send mark is set.  Without head bit 5 the word is 0, and
 * there is nothing to send.  A change leaves it as it was.
 *   state, state_len   the image, as for presence_outgoing
 * Order of the checks: 1, 2, 3, 4, 5, 6, 7, 8 (image).
 * Writes nothing.
 * It is sent in the same round and slot as the word of presence_outgoing, taken
 * from the same image.
 */
presence_word presence_outgoing_view(const uint8_t *state, size_t state_len);

/*
 * Whether a word that came in is heard, and if not, why: the first cause that
 * applies.  Serves to look at a single word, of the latest read or of a log;
 * words 4 to 7 of a page have the same of a whole read.
 *   n                  the number of modules, 2..16
 *   controller         the word's controller bit, 0 or 1
 *   word               the word, as 32 bits; any is taken
 * Order of the checks: 2 (n), 10 (controller); index 0.
 * Accepted: the cause, and the row if it is 0.  The row of a heard word may be
 * 0 too.
 * Refused: cause and row are 0, which says nothing of the word; so look at
 * number first.
 * Writes nothing.
 */
presence_cause presence_read_cause(uint32_t n, uint32_t controller,
                                   uint32_t word);

/*
 * Opens a module that has a page: presence_open, and the page of a fresh
 * module (health all ones, its view, no flags, enable 0, all causes 0).
 *   page, page_len     the page, PRESENCE_PAGE_BYTES; its old bytes are lost
 *   the rest           as for presence_open
 * Order of the checks: 1, 2, 3, 4, 5, 6 (setup), 7 (own, index 0),
 * 9 (output and page).
 * Refused: output and page stay as they were.
 */
presence_answer presence_page_open(const uint8_t *setup, size_t setup_len,
                                   uint32_t own, uint8_t *out, size_t out_len,
                                   uint8_t *page, size_t page_len);

/*
 * Makes the step of one round of a module that has a page: presence_step, and
 * the page is brought up to date.  Image and answer are those of
 * presence_step.
 *   page, page_len     the page, PRESENCE_PAGE_BYTES; any bytes are taken
 *   the rest           as for presence_step
 * Order of the checks: 1, 2, 3, 4, 5, 6, 7, 8 (image), 9 (read, output and
 * page), 10 (controller).
 * Refused: output and page stay as they were, and no step has been made.
 */
presence_answer presence_page_step(const uint8_t *state, size_t state_len,
                                   const uint8_t *read, size_t read_len,
                                   uint32_t controller,
                                   uint8_t *out, size_t out_len,
                                   uint8_t *page, size_t page_len);

/*
 * A word of the page.
 *   page, page_len     the page, PRESENCE_PAGE_BYTES
 *   offset             byte offset of the word: 0, 4, 8 .. 60
 * Order of the checks: 9, 17.
 * Writes nothing.
 */
presence_word presence_page_read(const uint8_t *page, size_t page_len,
                                 uint32_t offset);

/*
 * The host's write of a word of the page.  The word answered is 1 if the
 * interrupt is on after the write, else 0.
 *   page, page_len     the page, PRESENCE_PAGE_BYTES
 *   offset             PRESENCE_PAGE_FLAGS or PRESENCE_PAGE_ENABLE
 *   value              the flags to clear, or the new enable word
 * Must not overlap in time with a step that is lent the same page.
 * Order of the checks: 9, 17, 18.
 * Refused: the page stays as it was.
 */
presence_word presence_page_write(uint8_t *page, size_t page_len,
                                  uint32_t offset, uint32_t value);

/*
 * Whether the interrupt is on: the word is 1 or 0.
 *   page, page_len     the page, PRESENCE_PAGE_BYTES
 * The only check is 9.
 * Writes nothing.
 */
presence_word presence_page_interrupt(const uint8_t *page, size_t page_len);

/*
 * Helpers, which are no part of the library.  Those on lengths and views take
 * an accepted image of n modules, of any form; the first three take an accepted
 * setup as well.
 */

/* The length of a read. */
static inline size_t presence_read_bytes(const uint8_t *bytes, uint32_t n)
{
    return PRESENCE_IS_PARTITIONABLE(bytes)
               ? PRESENCE_PARTITIONABLE_READ_BYTES(n)
               : PRESENCE_READ_BYTES(n);
}

/* The length of an image without a pending change: what out_len of an opening
   has to be. */
static inline size_t presence_opened_bytes(const uint8_t *bytes, uint32_t n)
{
    return (PRESENCE_IS_FADING(bytes) ? PRESENCE_FADING_IMAGE_BYTES(n)
                                      : PRESENCE_IMAGE_BYTES(n)) +
           (PRESENCE_IS_PARTITIONABLE(bytes) ? PRESENCE_VIEWS_BYTES(n) : 0u);
}

/* The length of an image of counts with a pending change: what out_len of a
   change has to be. */
static inline size_t presence_changed_bytes(const uint8_t *bytes, uint32_t n)
{
    return presence_opened_bytes(bytes, n) + PRESENCE_PENDING_IMAGE_BYTES(n) -
           PRESENCE_IMAGE_BYTES(n);
}

/* The rounds left until a pending change, 0 if none is pending. */
static inline uint32_t presence_rounds_left(const uint8_t *image, uint32_t n)
{
    const uint8_t *from = image + 4u * (5u * n + 6u);

    if (PRESENCE_IS_FADING(image))
        return 0;
    return (uint32_t)from[0] << 24 | (uint32_t)from[1] << 16 |
           (uint32_t)from[2] << 8 | (uint32_t)from[3];
}

/* The length of an image, with or without a pending change. */
static inline size_t presence_image_bytes(const uint8_t *image, uint32_t n)
{
    return presence_rounds_left(image, n) > 0 ? presence_changed_bytes(image, n)
                                              : presence_opened_bytes(image, n);
}

/* The length of the image after a step from this one: what out_len of the step
   has to be. */
static inline size_t presence_stepped_bytes(const uint8_t *image, uint32_t n)
{
    return presence_rounds_left(image, n) > 1 ? presence_changed_bytes(image, n)
                                              : presence_opened_bytes(image, n);
}

/* The view that a card acts on, and that page and scan lock take: the adopted
   one with head bit 5, else the local one. */
static inline uint32_t presence_shown_view(const uint8_t *image, uint32_t n)
{
    const uint8_t *from = image + presence_image_bytes(image, n) - 8u;

    if (!PRESENCE_IS_PARTITIONABLE(image))
        return PRESENCE_IS_FADING(image) ? PRESENCE_FADING_VIEW(image, n)
                                         : PRESENCE_VIEW(image, n);
    return (uint32_t)from[2] << 8 | (uint32_t)from[3];
}

/* 1 if the card has taken itself out, else 0; 0 without head bit 5. */
static inline uint32_t presence_is_out(const uint8_t *image, uint32_t n)
{
    return PRESENCE_IS_PARTITIONABLE(image)
               ? image[presence_image_bytes(image, n) - 1u]
               : 0u;
}

/*
 * The two for fading copy a double byte by byte, so that nothing of the C
 * library is needed.
 */

/* The score of module j, 1..n, in an accepted fading image of n modules. */
static inline double presence_score(const uint8_t *image, uint32_t n,
                                    uint32_t j)
{
    const uint8_t *from = image + 4u * (2u * n + 7u + 2u * j);
    uint64_t bits = 0;
    double score = 0.0;
    unsigned i;

    for (i = 0; i < 8u; i++)
        bits = bits << 8 | from[i];
    for (i = 0; i < sizeof score; i++)
        ((unsigned char *)&score)[i] = ((const unsigned char *)&bits)[i];
    return score;
}

/*
 * Writes the PRESENCE_FADING_FRONT_BYTES before the modules' words in a fading
 * setup of n modules with return limit q.  Tests nothing but leaves that to
 * presence_check_setup.  For head bit 5: setup[3] |= PRESENCE_PARTITIONABLE.
 */
static inline void presence_fading_front(uint8_t *setup, uint32_t n, uint32_t q,
                                         double factor, double limit)
{
    const uint64_t head = 0x10000000u | q << 8 | n;
    uint64_t part[3] = {0, 0, 0}; /* two words each */
    unsigned i;

    part[0] = head << 32;
    for (i = 0; i < sizeof factor; i++) {
        ((unsigned char *)&part[1])[i] = ((const unsigned char *)&factor)[i];
        ((unsigned char *)&part[2])[i] = ((const unsigned char *)&limit)[i];
    }
    for (i = 0; i < PRESENCE_FADING_FRONT_BYTES; i++)
        setup[i] = (uint8_t)(part[i / 8u] >> (56u - 8u * (i % 8u)));
}

#ifdef __cplusplus
}
#endif

#endif

/*
 * stage.c - presence and scan lock together: the incident of the joystick that
 * only one card still saw (docs/INCIDENT.md), on four cards with different
 * read places.
 *
 * The first part is the firmware of one card, with the queue of events that
 * scanlock.h asks for: told after its step k and before its step k + 1.
 *
 * The second part stands for the bus and the stage, and plays the same rounds
 * twice.  First each card tells its scan lock an event when it comes, in the
 * middle of a round, where some cards have stepped and others have not: two
 * cards come to differ for good.  Then by the rule: all agree.  This run goes
 * on until the joystick's card, whose plug sits again, is back in the views:
 * its locks are lost for good, and it may begin new ones.
 *
 * Build, with libgirmaut.a in the folder LIB:
 *   gcc -std=c99 -O2 -Iinclude examples/stage/stage.c -LLIB -lgirmaut -o stage
 *
 * Prints what happens; exit status 0 if it is as said: in the first run the
 * cards differ from round 5 on, in the second they never do, every event is
 * answered as the table of events says, no other call is refused, and the
 * joystick is live in the end.
 */
#include <stdio.h>
#include <string.h>

#include "presence.h"
#include "scanlock.h"

/* ================= firmware of a card ================= */

#define N 4u
#define JOYSTICK 4u /* the joystick's card */
#define Q 6u        /* good rounds after which a card is back */
#define QUEUE 8u    /* as many events as the bus carries in a round */

#define WORD(w) \
    (uint8_t)((w) >> 24), (uint8_t)((w) >> 16), (uint8_t)((w) >> 8), (uint8_t)(w)
#define MODULE(number, mark, place, criticality) \
    WORD(0x40000000u | (number) << 23 | (mark) << 22 | (place) << 17 | (criticality))

/* The setup, the same in all cards: P = 3, R = 3; the joystick's card is
   struck off after two charges, another one after four. */
static const uint8_t setup[PRESENCE_SETUP_BYTES(N)] = {
    WORD(0x10000000u | Q << 8 | N), WORD(0x20000003u), WORD(0x30000003u),
    MODULE(1u, 0u, 4u, 1u), /* steps at the end of the round */
    MODULE(2u, 1u, 1u, 1u), /* steps after 1 has sent, then sends */
    MODULE(3u, 1u, 0u, 1u), /* steps at the beginning, then sends */
    MODULE(4u, 0u, 2u, 2u)  /* steps after 2 has sent */
};

enum kind { BEGIN, END, START, ABORT, FINISHED, STOPPED };

struct event {
    enum kind kind;
    uint32_t module; /* 0 for the reports of an axis */
    uint32_t axis;
};

struct card {
    uint32_t own;
    uint8_t image[2][PRESENCE_IMAGE_BYTES(N)];
    unsigned current;                     /* which image is the state */
    uint8_t lock[2][SCANLOCK_IMAGE_BYTES];
    unsigned locked;                      /* which one is the scan lock */
    struct event queue[QUEUE];            /* events of this round, in order */
    unsigned queued;
    uint32_t answers[QUEUE];              /* to the events told last */
    unsigned told;
    uint32_t word;                        /* word to send in this round */
    uint32_t joystick;                    /* 1 while the joystick is live */
    uint32_t number;                      /* latest answer of the scan lock */
    unsigned refused;                     /* calls refused so far */

    /* Buffer of the bus controller: latest word from each card, and a bit if
       its reception was valid. */
    uint8_t received[PRESENCE_READ_BYTES(N)];
    uint32_t valid;
};

/* Bit 22 and bits 21..17 of a card's word in the setup. */
static int has_send_mark(uint32_t own)
{
    return (setup[4u * (2u + own) + 1u] & 0x40u) != 0;
}

static uint32_t read_place(uint32_t own)
{
    return setup[4u * (2u + own) + 1u] >> 1 & 0x1Fu;
}

static void card_start(struct card *c, uint32_t own)
{
    presence_answer p = presence_open(setup, sizeof setup, own, c->image[0],
                                      sizeof c->image[0]);
    scanlock_answer s = scanlock_open(N, c->lock[0], sizeof c->lock[0]);

    c->own = own;
    c->current = 0;
    c->locked = 0;
    c->queued = 0;
    c->told = 0;
    c->joystick = s.joystick;
    c->refused = p.number != PRESENCE_ACCEPTED || s.number != SCANLOCK_ACCEPTED;
}

/* An accepted call's output is the scan lock from then on. */
static void card_take(struct card *c, scanlock_answer a)
{
    if (a.number == SCANLOCK_ACCEPTED)
        c->locked = 1u - c->locked;
    else
        c->refused++;
    c->number = a.number;
    c->joystick = a.joystick;
}

#define LOCK(c) (c)->lock[(c)->locked], SCANLOCK_IMAGE_BYTES
#define NEXT(c) (c)->lock[1u - (c)->locked], SCANLOCK_IMAGE_BYTES

static void card_tell(struct card *c, const struct event *e)
{
    scanlock_answer a;

    switch (e->kind) {
    case BEGIN: a = scanlock_begin(LOCK(c), e->module, e->axis, NEXT(c)); break;
    case END:   a = scanlock_end(LOCK(c), e->module, e->axis, NEXT(c)); break;
    case START: a = scanlock_start(LOCK(c), e->module, e->axis, NEXT(c)); break;
    case ABORT: a = scanlock_abort(LOCK(c), e->module, e->axis, NEXT(c)); break;
    case FINISHED: a = scanlock_finished(LOCK(c), e->axis, NEXT(c)); break;
    default:       a = scanlock_stopped(LOCK(c), e->axis, NEXT(c)); break;
    }
    card_take(c, a);
}

/* An event came in, this card's own ones too: it waits for the end of the
   round.  Must not interrupt card_end_round, nor be interrupted by it. */
static void card_event(struct card *c, const struct event *e)
{
    if (c->queued < QUEUE)
        c->queue[c->queued++] = *e;
    else
        c->refused++; /* this card no longer tells what the others tell */
}

/* The end of round k, after step k of every card and before step k + 1 of any,
   whatever the read places: the events of the round are told. */
static void card_end_round(struct card *c)
{
    unsigned i;

    for (i = 0; i < c->queued; i++) {
        card_tell(c, &c->queue[i]);
        c->answers[i] = c->number;
    }
    c->told = c->queued;
    c->queued = 0;
}

/* At the beginning of each round, and again after a step with the send mark. */
static void card_word(struct card *c)
{
    presence_word w = presence_outgoing(c->image[c->current],
                                        sizeof c->image[0]);

    if (w.number != PRESENCE_ACCEPTED)
        c->refused++;
    c->word = w.word;
}

/* Once a round, at the card's read place: the step, and at once the view that
   it left to the scan lock. */
static void card_step(struct card *c)
{
    unsigned next = 1u - c->current;
    presence_answer a = presence_step(c->image[c->current],
                                      sizeof c->image[0], c->received,
                                      sizeof c->received, c->valid,
                                      c->image[next], sizeof c->image[0]);

    if (a.number != PRESENCE_ACCEPTED) {
        c->refused++;
        return;
    }
    c->current = next;
    if (has_send_mark(c->own))
        card_word(c); /* the word of this step goes out in this round */
    card_take(c, scanlock_view(LOCK(c), presence_shown_view(c->image[next], N),
                               NEXT(c)));
}

/* ================= bus and stage ================= */

#define ROUNDS 8u       /* of the first run */
#define ALL_ROUNDS 15u  /* of the second, in which card 4 comes back */

static struct card cards[N];

/* In rounds 1 to 3 the joystick's plug is loose: cards 1 and 3 do not hear it,
   card 2 does.  These rounds are judged in steps 4 to 6, and card 4 is struck
   off in step 5.  Rounds 4 to 9 are good; they are judged in steps 7 to 12, and
   with the sixth of them, in step 12, card 4 is back. */
static int lost(uint32_t round, uint32_t sender, uint32_t receiver)
{
    return round >= 1 && round <= 3 && sender == JOYSTICK &&
           (receiver == 1 || receiver == 3);
}

/* What comes in after which slot of which round; round 0 is before round 1.
   Whatever carries events must bring each to all cards, in one order. */
static const struct coming {
    uint32_t round, slot;
    struct event event;
    const char *text;
    uint32_t number; /* what the scan locks answer, told by the rule */
} comings[] = {
    { 0, 0, { BEGIN, JOYSTICK, 1 }, "card 4 begins a scan of axis 1", 0 },
    { 0, 0, { BEGIN, JOYSTICK, 1 }, "card 4 begins a nested one", 0 },
    { 0, 0, { START, JOYSTICK, 1 }, "card 4 starts a move", 0 },
    { 2, 3, { FINISHED, 0, 1 }, "axis 1 reports the move finished", 0 },
    { 5, 1, { BEGIN, 1, 1 }, "card 1 begins a scan of axis 1", 0 },
    { 6, 0, { START, 1, 1 }, "card 1 starts a move", 0 },
    { 6, 2, { ABORT, 2, 1 }, "card 2 aborts it", 0 },
    { 7, 4, { STOPPED, 0, 1 }, "axis 1 reports that it has stopped", 0 },
    { 11, 1, { BEGIN, JOYSTICK, 2 }, "card 4, still struck off, begins a scan "
      "of axis 2", SCANLOCK_OUT_OF_RANGE },
    { 12, 1, { END, JOYSTICK, 1 }, "card 4, now back, ends its scan of axis 1, "
      "which it has lost", SCANLOCK_WRONG_DEPTH },
    { 12, 3, { BEGIN, JOYSTICK, 1 }, "card 4 begins a new scan of axis 1", 0 },
    { 13, 0, { START, JOYSTICK, 1 }, "card 4 starts a move", 0 },
    { 14, 2, { FINISHED, 0, 1 }, "axis 1 reports the move finished", 0 },
    { 15, 0, { END, JOYSTICK, 1 }, "card 4 ends its scan", 0 }
};

#define COMINGS (sizeof comings / sizeof comings[0])

/* By the rule, or told when it comes. */
static void carry(const struct coming *e, int by_rule)
{
    uint32_t i;

    if (!by_rule && e->round > 5 && cards[0].refused != 0)
        return; /* card 1 scans only if its own scan lock let it begin */
    printf("round %u, after slot %u: %s%s", (unsigned)e->round,
           (unsigned)e->slot, e->text, by_rule ? "" : ", answers");
    for (i = 0; i < N; i++)
        if (by_rule) {
            card_event(&cards[i], &e->event);
        } else {
            card_tell(&cards[i], &e->event);
            printf(" %u", (unsigned)cards[i].number);
        }
    printf("\n");
}

/* The word of card j arrives at the cards that hear it. */
static void send(uint32_t j, uint32_t round)
{
    const uint8_t bytes[4] = { WORD(cards[j - 1].word) };
    uint32_t i;

    for (i = 0; i < N; i++) {
        cards[i].valid &= ~(1u << (j - 1));
        if (!lost(round, j, i + 1)) {
            memcpy(cards[i].received + 4u * (j - 1), bytes, 4);
            cards[i].valid |= 1u << (j - 1);
        }
    }
}

/* The cards send in turn; each steps at its read place.  In round 0 all are
   opened, and all send the all-ones word. */
static void play(uint32_t round, int by_rule)
{
    uint32_t slot, i, e;

    for (i = 0; i < N; i++) {
        if (round == 0)
            card_start(&cards[i], i + 1);
        card_word(&cards[i]);
    }
    for (slot = 0; slot <= N; slot++) {
        if (slot > 0)
            send(slot, round);
        for (i = 0; i < N; i++)
            if (read_place(i + 1) == slot && round > 0)
                card_step(&cards[i]);
        for (e = 0; e < COMINGS; e++)
            if (comings[e].round == round && comings[e].slot == slot)
                carry(&comings[e], by_rule);
    }
    for (i = 0; i < N; i++)
        card_end_round(&cards[i]);
}

/* At the end of a round: the answers to its events, the same at all cards, are
   those of the table.  Answers whether it was so. */
static int print_answers(uint32_t round)
{
    unsigned told = 0;
    uint32_t e, i;
    int right = 1;

    for (e = 0; e < COMINGS; e++)
        if (comings[e].round == round) {
            printf("%s %u", told == 0 ? ": answers" : "",
                   (unsigned)cards[0].answers[told]);
            for (i = 0; i < N; i++)
                right = right && told < cards[i].told &&
                        cards[i].answers[told] == comings[e].number;
            told++;
        }
    printf(told == 0 ? ":" : ",");
    return right;
}

/* All cards hold the same locks and give the same answer. */
static int all_agree(void)
{
    uint32_t i;

    for (i = 1; i < N; i++)
        if (memcmp(cards[i].lock[cards[i].locked],
                   cards[0].lock[cards[0].locked], SCANLOCK_IMAGE_BYTES) != 0 ||
            cards[i].joystick != cards[0].joystick)
            return 0;
    return 1;
}

/* A whole run.  Answers the first round, from 0 on, after which the cards
   differed or an answer was not that of the table; rounds + 1 if there was
   none. */
static uint32_t run(const char *title, int by_rule, uint32_t rounds)
{
    uint32_t round, i, first = 0;
    int right;

    printf("%s\n", title);
    for (round = 0; round <= rounds; round++) {
        play(round, by_rule);
        printf("end of round %u", (unsigned)round);
        right = !by_rule || print_answers(round);
        printf("%s view", by_rule ? "" : ":");
        for (i = 0; i < N; i++)
            printf(" %X", (unsigned)PRESENCE_VIEW(
                       cards[i].image[cards[i].current], N));
        printf(", joystick");
        for (i = 0; i < N; i++)
            printf(" %s", cards[i].joystick ? "live" : "dead");
        printf("%s\n", all_agree() ? "" : ", the locks differ");
        if (first == round && all_agree() && right)
            first++;
    }
    return first;
}

int main(void)
{
    int right;
    uint32_t i, e, refused = 0;

    right = run("Events told when they come", 0, ROUNDS) == 5 &&
            cards[0].joystick != cards[1].joystick;
    right = run("\nEvents told after step k and before step k + 1", 1,
                ALL_ROUNDS) == ALL_ROUNDS + 1 && right;
    for (e = 0; e < COMINGS; e++)
        refused += comings[e].number != SCANLOCK_ACCEPTED;
    for (i = 0; i < N; i++)
        right = right && cards[i].refused == refused && cards[i].joystick == 1;
    printf("\n%s\n", right ? "by the rule no two cards differed" : "FAILED");
    return right ? 0 : 1;
}

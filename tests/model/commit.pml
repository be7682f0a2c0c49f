/* How the sessions of one service wait until what they did is kept: the methods of `Monitor` in
   crates/group_commit/src/monitor.rt that take its lock, an inline of the same name each, and the
   drive's mutex. tests/model/run searches it by spin, in all orders in which the threads may take
   their steps.

   A step is a section of a lock; a part of a flush; a sleep; a wake-up. With FINE each of these is
   several steps, each lock and each unlock among them. A flush ends well, lacks room, or fails:
   each is tried, whenever there is one. `main` waits for the end, and flushes a last time then, at
   the drive's own clock; and somebody says `stop` at any time. A flush that lacks room is given up
   then, sooner or later.

   Left out: what is in the drive; how long a flush is put off. A thread that goes on after `main`
   has returned is ended by the system: here it may go on.

   All that is asked of numbers of changes and of moments is which is the greater, so both are
   counted from what the monitor has noted as kept. So a run of any length has few states.

   What is chosen by macros:
   SESSIONS      how many; two where it isn't given
   REQUESTS      of each; any number where it isn't given
   SHORTAGES     flushes that lack room; any number where it isn't given
   BATCH         requests that may be done before one wait; one where it isn't given
   FALLS_SILENT  a client may ask no more though its input is open, or not read its reply: nothing
                 may wait for it then, but `main` for a moment
   FAULT         1 .. 17, a fault: see there */
#ifndef SESSIONS
#define SESSIONS 2
#endif
#ifndef BATCH
#define BATCH 1
#endif
#ifndef FAULT
#define FAULT 0
#endif
#define MAIN SESSIONS             /* the thread that waits for the end */
#define WAITERS (SESSIONS + 1)
#define AHEAD 1                   /* how far the moment of what is kept is ahead of the clock */

bit monitor;                      /* the monitor's mutex. What follows is under it */
byte kept_number;                 /* the receipt: changes that are kept, */
byte kept_reach = AHEAD;          /* and the clock of what is kept */
bit is_flushing, has_failed, is_short, is_stopping, has_ended;
byte due;                         /* pieces whose replies are */
byte sending;                     /* those of them whose replies are going out */
byte waiting, expected;           /* sessions that wait for a flush, now and when the last one ended */
bit is_counted[SESSIONS];         /* those of `waiting` */
bit is_asleep[WAITERS];           /* on the one condition variable */

bit drive;                        /* the drive's mutex. What follows is under it */
byte accepted, clock;

byte number[SESSIONS], moment[SESSIONS]; /* the last step of each session */
/* What whoever flushes has collected. Local in `flush`: it is here to be counted anew. */
byte new_number[SESSIONS], new_reach[SESSIONS];

byte disk_number;                 /* what a crash leaves */
byte disk_reach = AHEAD;
bit is_lost;                      /* what was written may be lost */
bit was_given_up;                 /* a flush was that lacked room */
byte flushing;                    /* who are in a flush */

byte left, mute;                  /* sessions that have ended; that do nothing more, but haven't */
byte unread;                      /* those whose replies nobody reads */
bit has_returned;                 /* `main` has */
#ifdef SHORTAGES
byte shortages = SHORTAGES;
#define LACKS_ROOM shortages > 0 -> shortages--;
#else
#define LACKS_ROOM
#endif

/* Only for what is claimed. */
bit is_waiting[SESSIONS];         /* until its last step is kept */
bit is_answering[SESSIONS];       /* a piece that it has begun */
bit is_sending[SESSIONS];         /* its reply, which is kept */

#ifdef FINE
#define SECTION
#else
#define SECTION atomic
#endif
#define LOCK(mutex)   atomic { mutex == 0 -> mutex = 1 }
#define UNLOCK(mutex) mutex = 0

inline notify_all() {
  d_step { for (each : 0 .. WAITERS - 1) { is_asleep[each] = 0 } each = 0 }
}

/* Condvar::wait: it unlocks and sleeps in one step; woken, it locks again. Each caller then looks
   at its predicate again. */
inline sleep(me) {
  atomic { is_asleep[me] = 1; UNLOCK(monitor) };
  is_asleep[me] == 0;
  LOCK(monitor)
}

/* The sections of the monitor's lock. */

#define COVERS(a_number, a_reach, me) (number[me] <= a_number && moment[me] <= a_reach)
#if FAULT == 14
#define IS_OVER(me) (has_ended && !COVERS(kept_number, kept_reach, me))
#else
#define IS_OVER(me) has_ended
#endif
#define MUST_WAIT(me) (!IS_OVER(me) && !COVERS(kept_number, kept_reach, me) && !has_failed && is_flushing)

inline ask(me) {
  SECTION { LOCK(monitor);
    do
    :: IS_OVER(me) -> given = NOT_KEPT; break
    :: !IS_OVER(me) && COVERS(kept_number, kept_reach, me) -> given = RECEIPT; break
    :: !IS_OVER(me) && !COVERS(kept_number, kept_reach, me) && has_failed -> given = NOT_KEPT; break
    :: !IS_OVER(me) && !COVERS(kept_number, kept_reach, me) && !has_failed && !is_flushing ->
#if FAULT != 1
       is_flushing = 1;
#endif
       given = TO_FLUSH; break
    :: MUST_WAIT(me) ->
       do
       :: MUST_WAIT(me) ->
          if
          :: !is_counted[me] ->
             is_counted[me] = 1; waiting++;
#if FAULT != 11
             if :: waiting == expected -> notify_all() :: else fi
#endif
          :: else
          fi;
#if FAULT == 2
          UNLOCK(monitor); LOCK(monitor);
#endif
          sleep(me)
       :: else -> break
       od;
       if :: is_counted[me] -> is_counted[me] = 0; waiting-- :: else fi
    od;
    UNLOCK(monitor) }
}

/* Whoever is to flush waits until as many wait for it as are expected, or its time is over. */
inline gather(me) {
  gathers = 1;
  do
  :: gathers ->
     SECTION { LOCK(monitor);
       gathers = waiting < expected;
       for (each : 0 .. SESSIONS - 1) { assert(!is_counted[each] || MUST_WAIT(each)) }
       each = 0;
       atomic { is_asleep[me] = gathers; UNLOCK(monitor) } };
     if
     :: is_asleep[me] == 0                                    /* woken, or it needn't wait */
#if FAULT != 12
     :: atomic {
          is_asleep[me] == 1 -> assert(waiting < expected || monitor);
          is_asleep[me] = 0; gathers = 0
        }
#endif
     fi
  :: else -> break
  od
}

#define LOWER(a, b) a = (a > (b) -> a - (b) : 0)

/* From here on changes and moments are counted from those of the receipt. */
inline count_anew() {
  d_step {
    for (each : 0 .. SESSIONS - 1) {
      LOWER(number[each], kept_number); LOWER(moment[each], kept_reach - AHEAD);
      LOWER(new_number[each], kept_number); LOWER(new_reach[each], kept_reach - AHEAD)
    }
    each = 0;
    LOWER(disk_number, kept_number); LOWER(disk_reach, kept_reach - AHEAD);
    accepted = accepted - kept_number; clock = clock - (kept_reach - AHEAD);
    kept_number = 0; kept_reach = AHEAD
  }
}

inline keep(me) {
  SECTION { LOCK(monitor);
    if
    :: kept_number <= new_number[me] && kept_reach <= new_reach[me] ->
       kept_number = new_number[me]; kept_reach = new_reach[me]
    :: else
    fi;
    new_number[me] = 0; new_reach[me] = 0;
    is_flushing = 0; is_short = 0; expected = waiting;
#if FAULT != 13
    waiting = 0;
    for (each : 0 .. SESSIONS - 1) { is_counted[each] = 0 }
    each = 0;
#endif
    assert(kept_number <= disk_number && kept_reach <= disk_reach);
    count_anew();
    UNLOCK(monitor) }
#if FAULT != 3
  notify_all()
#endif
}

inline fail() {
  SECTION { LOCK(monitor);
#if FAULT != 4
    has_failed = 1;
#endif
    is_flushing = 0;
    UNLOCK(monitor) }
  notify_all()
}

inline put_off() {
  SECTION { LOCK(monitor);
    is_short = 1;
#if FAULT == 5
    is_flushing = 0;
#endif
    if                                                        /* it was tried often enough */
    :: is_stopping -> has_failed = 1; is_flushing = 0; was_given_up = 1
    :: skip
    fi;
    gives_up = was_given_up;
    UNLOCK(monitor) }
  if :: gives_up -> notify_all() :: else fi                   /* as the end of its own replies does */
}

#define MAY_GO_ON (!is_stopping && !has_failed)

inline goes_on() {
  SECTION { LOCK(monitor); may_go_on = MAY_GO_ON; UNLOCK(monitor) }
}

inline begin_replies(me) {
  SECTION { LOCK(monitor);
#if FAULT != 6
    due++;
#endif
    is_answering[me] = 1;
    UNLOCK(monitor) }
}

inline end_replies(me) {
  SECTION { LOCK(monitor);
    if :: due > 0 -> due-- :: else fi;
    is_answering[me] = 0;
    UNLOCK(monitor) }
#if FAULT != 7
  notify_all()
#endif
}

inline begin_sending(me) {
  SECTION { LOCK(monitor);
    sending++;
    is_sending[me] = 1;
    is_news = is_stopping;
    UNLOCK(monitor) }
#if FAULT != 17 && FAULT != 3
  if :: is_news -> notify_all() :: else fi
#endif
}

inline end_sending(me) {
  SECTION { LOCK(monitor); sending--; is_sending[me] = 0; UNLOCK(monitor) }
}

#define MAY_END (has_failed || is_stopping && due <= sending && !is_flushing)

inline stop() {
  SECTION { LOCK(monitor); is_stopping = 1; UNLOCK(monitor) }
#if FAULT != 8
  notify_all()
#endif
}

inline await_last() {
  SECTION { LOCK(monitor);
    do
    :: MAY_GO_ON -> sleep(MAIN)
    :: else -> break
    od;
    do
    :: has_failed || due == 0 && !is_flushing -> break
    :: else -> atomic { is_asleep[MAIN] = 1; UNLOCK(monitor) };
       is_asleep[MAIN] == 0 || unread > 0;                    /* woken, or its time is over */
       is_asleep[MAIN] = 0;
       LOCK(monitor);
       if :: unread > 0 -> break :: else fi
    od;
    do
#if FAULT == 16
    :: is_flushing && !has_failed -> sleep(MAIN)
#else
    :: !MAY_END -> sleep(MAIN)
#endif
    :: else -> break
    od;
    if
    :: !has_failed ->
       assert(flushing == 0);
       for (each : 0 .. SESSIONS - 1) {
         assert(!is_answering[each] || unread > 0 && is_sending[each])
       }
       each = 0
    :: else
    fi;
#if FAULT != 15
    has_ended = 1;
#endif
    is_well = !has_failed;
    UNLOCK(monitor) }
  notify_all()
}

/* The last flush, which `main` makes. */
inline close() {
  do
  :: atomic { flushing++; assert(flushing == 1 && !is_lost) };
     SECTION { LOCK(drive);                                   /* it collects */
       last_number = accepted; last_clock = clock;
       UNLOCK(drive) };
     atomic {
       if                                                     /* it writes */
       :: disk_number = last_number; disk_reach = last_clock; came = WELL
       :: LACKS_ROOM came = SHORT
       :: is_lost = 1; came = FAILED
       fi;
       flushing--
     };
     if
     :: came == SHORT -> put_off(); if :: gives_up -> break :: else fi
     :: else -> break
     fi
  od
}

/* A session. */

/* It does a request: a Read, or a change that is accepted. */
inline accept(me) {
  SECTION { LOCK(drive);
    clock++;
    if :: accepted++ :: skip fi;
    number[me] = accepted; moment[me] = clock;
    UNLOCK(drive) }
}

inline flush(me) {
  atomic { flushing++; assert(flushing == 1 && !is_lost) };
  SECTION { LOCK(drive);                                      /* it collects */
    new_number[me] = accepted; new_reach[me] = clock + AHEAD;
    UNLOCK(drive) };
  atomic {
    if                                                        /* it writes */
    :: disk_number = new_number[me]; disk_reach = new_reach[me]; came = WELL
    :: LACKS_ROOM came = SHORT
    :: is_lost = 1; came = FAILED
    fi;
#if FAULT == 9
    new_number[me] = accepted; new_reach[me] = clock + AHEAD;
#endif
    if :: came != WELL -> new_number[me] = 0; new_reach[me] = 0 :: else fi;
    flushing--
  }
}

inline flush_for_all(me) {
  gather(me);
  do
  :: flush(me);
     if
     :: came == WELL -> keep(me); break
     :: came == FAILED -> fail(); break
     :: came == SHORT -> put_off(); if :: gives_up -> break :: else fi
     fi
  od
}

inline await_kept(me) {
  is_waiting[me] = 1;
  do
  :: ask(me);
     if :: given == TO_FLUSH -> flush_for_all(me) :: else -> break fi
  od;
  is_waiting[me] = 0
}

/* Its reply, or the replies to a batch. */
inline reply(me) {
  atomic {
    assert(number[me] <= disk_number && moment[me] <= disk_reach);
    number[me] = 0; moment[me] = 0
  }
}

mtype = { RECEIPT, NOT_KEPT, TO_FLUSH, WELL, SHORT, FAILED };

proctype Session(byte me) {
  byte each;
  mtype given, came;
  bit may_go_on, is_second, gathers, gives_up, is_news;
#ifdef REQUESTS
  byte asked;
#define ASKS asked < REQUESTS -> asked++;
#else
#define ASKS
#endif
  do
  :: goes_on();
     if :: may_go_on :: else -> goto over fi;
     if
     :: ASKS begin_replies(me)                               /* bytes came */
     :: goto over                                            /* its input has ended */
#ifdef FALLS_SILENT
     :: mute++; false
#endif
     fi;
     do
     :: accept(me);
#if BATCH > 1
        if :: accept(me) :: skip fi;
#endif
#if FAULT == 10
        reply(me);
#endif
        await_kept(me);
        if :: given == NOT_KEPT -> end_replies(me); goto over :: else fi;
        begin_sending(me);
#ifdef FALLS_SILENT
        if :: mute++; unread++; false :: skip fi;            /* its client doesn't read */
#endif
        reply(me);
        end_sending(me);
        if
        :: !is_second -> is_second = 1                       /* another one of this piece */
        :: is_second = 0; break
        fi
     :: !is_second -> break                                  /* nothing was whole */
     od;
     end_replies(me)
  od;
over:
  left++
}

proctype Main() {
  byte each, last_number, last_clock;
  mtype came;
  bit gives_up, is_well;
  await_last();
  if :: is_well -> close() :: else fi;
#if FAULT == 15
  has_ended = 1;
#endif
  has_returned = 1
}

proctype Stopper() {
  byte each;
  stop()
}

#ifdef FALLS_SILENT
/* No thread can take a step. Then all is over, or sessions are mute and nobody waits for them. */
proctype Quiet() {
  timeout;
  assert(left + mute == SESSIONS && has_returned);
  assert(drive == 0 && monitor == 0 && flushing == 0 && !is_flushing);
  assert(due == unread && (was_given_up || is_lost == has_failed || has_ended))
}
#endif

init {
  byte each;
  atomic {
    run Main(); run Stopper();
#ifdef FALLS_SILENT
    run Quiet();
#endif
    for (each : 0 .. SESSIONS - 1) { run Session(each) }
    each = 0
  }
}

ltl ends  { <> (has_returned && left == SESSIONS) } /* each run, where shortages end */
ltl waits { [] (is_waiting[0] -> <> !is_waiting[0]) }         /* the same */

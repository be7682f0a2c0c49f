/* How the sessions of one drive, its cleaner and its copier wait for one another: the methods
   of `Pace` in crates/server/src/pace.rt that take the monitor's lock, an inline of the same
   name each, and the drive's mutex. tests/model/run searches it by spin, in all orders in
   which the threads may take their steps.

   A step is a section of the monitor's lock, with the drive's lock right before it or the
   drive's unlock right after it; a sleep; a wake-up. With FINE each of these is several
   steps, each lock and each unlock among them. What the code decides by rooms, clocks, chains
   and the agenda is left open: each answer is tried.

   Left out: what is in the drive; moments, so a timed wait may end at once; memory and its
   refusals; that the two mutexes are fair, but for the drive's with FAIR. A session's look at
   `wanting` before it tries the drive's lock decides no sleep: here it may try, and may ask,
   whatever it would see.

   All that is asked of the numbers of rounds is which is the greater, so they are counted
   from the last round that ended. Of `entered`, `taken` and `stirred` it is asked how far
   they are from what one saw: a few values. So a run of any length has few states.

   What is chosen by macros:
   SESSIONS      how many; one where it isn't given
   REQUESTS      of each; any number where it isn't given
   MOVES         that the copier finds; any number where it isn't given
   QUANTUM       changes and rounds after which the copier looks again; one where it isn't given
   THREADED      the system gives all threads; otherwise each may be lacking
   FALLS_SILENT  a session may stop asking though its input is open: nothing may wait for it then
   FAIR          the drive's mutex goes to those in its lock call in the order in which they came
   OLD_ORDER     an order that loses a call: the cleaner reads whether all others have ended before
                 its round begins, the begin of a round clears what is wanted, and the cleaner
                 rests where nothing is wanted, whoever has ended meanwhile
   FAULT         1 .. 11, another fault: see there */
#ifndef SESSIONS
#define SESSIONS 1
#endif
#ifndef QUANTUM
#define QUANTUM 1
#endif
#ifndef FAULT
#define FAULT 0
#endif
#define CLEANER SESSIONS
#define COPIER (SESSIONS + 1)
#define SERVER (SESSIONS + 2)     /* the thread that begins the sessions and waits for their end */
#define WAITERS (SESSIONS + 3)

bit drive;                        /* the drive's mutex */
bit monitor;                      /* the monitor's. What follows is under it */
bit is_going, is_served, is_moved;
byte begun, ended, wanted, frees; /* numbers of rounds */
byte target[SESSIONS];            /* local in await_round: it is here to be counted anew */
bit is_hidden;                    /* the agenda: what was hidden waits for a round */
byte walk = 3;                    /* rounds that the walk over all objects takes still, at most */
bit is_scarce;                    /* the room, as it was last looked at */
byte stirred;                     /* since the copier's step began, and no further than QUANTUM */
byte asking, wanting;             /* in the drive's lock call: sessions; cleaner and copier */
byte awaits[WAITERS];             /* what this one waits for, which hasn't come since it does */
#define A_TAKE 1                  /* cleaner or copier has the drive */
#define AN_ENTRY 2                /* a session has */
byte giving_way;                  /* how many wait for such */
bit is_resting;                   /* the copier waits, and was not called since */
bit is_asleep[WAITERS];           /* on the one condition variable */
bit has_moved;                    /* local in the copier: it is here to be looked at by Quiet */

bit is_keep_threaded, is_clean_threaded, are_sessions_threaded;
bit is_keep_called, are_sessions_called, has_cleaned, has_copied;
byte left, mute;                  /* sessions that have ended; that ask no more, and don't end */
#ifdef MOVES
byte moves = MOVES;
#define FINDS_A_MOVE moves > 0 -> moves--;
#else
#define FINDS_A_MOVE
#endif

/* Only for what is claimed. */
bit is_owed;                      /* something was hidden, and no round has begun since */
bit is_unseen, is_held; /* something is hidden that no turn saw; that one saw, not freed yet */
/* the same, of what was so when this session began to wait */
bit was_unseen[SESSIONS], was_held[SESSIONS];
bit is_waiting[SESSIONS];         /* for a round */
#ifdef FAIR
bit needs_drive[WAITERS];
#define NEEDS_DRIVE(me, yes) needs_drive[me] = yes;
#else
#define NEEDS_DRIVE(me, yes)
#endif

#ifdef FINE
#define SECTION
#define TOGETHER
#else
#define SECTION atomic
#define TOGETHER atomic
#endif
#define LOCK(mutex)   atomic { mutex == 0 -> mutex = 1 }
#define UNLOCK(mutex) mutex = 0

#ifdef FAIR
chan line = [WAITERS] of { byte };
#define LOCK_DRIVE(me) line!me; atomic { drive == 0 && line?[eval(me)] -> line?eval(me); drive = 1 }
#define IS_FREE        (drive == 0 && empty(line))
#else
#define LOCK_DRIVE(me) LOCK(drive)
#define IS_FREE        (drive == 0)
#endif

inline notify_all() {
  d_step { for (each : 0 .. WAITERS - 1) { is_asleep[each] = 0 } each = 0 }
}

/* Condvar::wait: it unlocks and sleeps in one step; woken, it locks again. Each caller then looks
   at its predicate again. */
inline sleep(me) {
  atomic { is_asleep[me] = 1; UNLOCK(monitor) };
  is_asleep[me] == 0;
  LOCK(monitor)
}

/* The copier has a step to take. */
#define HAS_STEP (is_scarce && (has_moved || stirred >= QUANTUM))

inline call_copier() {
  if
  :: is_resting && HAS_STEP -> is_resting = 0;
#if FAULT != 10
     notify_all()
#endif
  :: else
  fi
}

inline want(round) {
  if :: wanted < round -> wanted = round; notify_all() :: else fi
}

/* The drive's lock. */

inline is_come(what) {
  d_step {
    for (each : 0 .. WAITERS - 1) { if :: awaits[each] == what -> awaits[each] = 0 :: else fi }
    each = 0
  }
}

inline ask_drive(me) {
  SECTION { LOCK(monitor);
    if
    :: wanting > 0 ->
       awaits[me] = A_TAKE; giving_way++;
       do
       :: wanting > 0 && awaits[me] == A_TAKE -> sleep(me)
       :: else -> break
       od;
       awaits[me] = 0; giving_way--
    :: else
    fi;
    asking++;
    UNLOCK(monitor) }
}

inline enter_drive() {
  SECTION { LOCK(monitor);
    asking--;
    is_come(AN_ENTRY);
#if FAULT != 6
    if :: giving_way > 0 -> notify_all() :: else fi;
#endif
    UNLOCK(monitor) }
}

inline want_drive(me) {
  SECTION { LOCK(monitor);
    if
    :: asking > 0 ->
       awaits[me] = AN_ENTRY; giving_way++;
       do
       :: asking > 0 && awaits[me] == AN_ENTRY -> sleep(me)
       :: else -> break
       od;
       awaits[me] = 0; giving_way--
    :: else
    fi;
    wanting++;
    UNLOCK(monitor) }
}

inline take_drive() {
  SECTION { LOCK(monitor);
    wanting--;
    is_come(A_TAKE);
#if FAULT != 7
    if :: giving_way > 0 -> notify_all() :: else fi;
#endif
    UNLOCK(monitor) }
}

/* A session gets the drive: by a try, or after it has asked. */
inline hold(me) {
  NEEDS_DRIVE(me, 1)
  if
  :: atomic { IS_FREE -> drive = 1 }
  :: ask_drive(me); TOGETHER { LOCK_DRIVE(me); enter_drive() }
  fi;
  NEEDS_DRIVE(me, 0)
}

/* Cleaner or copier gets it. */
inline hold_next(me) {
  NEEDS_DRIVE(me, 1)
  want_drive(me); TOGETHER { LOCK_DRIVE(me); take_drive() };
  NEEDS_DRIVE(me, 0)
}

/* Rounds. */

inline count() {
  SECTION { LOCK(monitor);
    if :: stirred < QUANTUM -> stirred++ :: else fi;
    if :: is_scarce = 0 :: is_scarce = 1 fi;
    call_copier();
    if :: want(begun + 1) :: skip fi;                         /* is a round due? */
    if :: is_pressed = 0 :: is_pressed = 1 fi;
    UNLOCK(monitor) }
}

inline await_round(me) {
  SECTION { LOCK(monitor);
    d_step { is_waiting[me] = 1; was_unseen[me] = is_unseen; was_held[me] = is_held };
    if
    :: ended < frees -> target[me] = frees
    :: else -> target[me] = begun + 1
    fi;
#if FAULT == 2
    if :: wanted < target[me] -> wanted = target[me] :: else fi;
#elif FAULT != 1
    want(target[me]);
#endif
    do
    :: is_going && (ended < target[me] || walk > 0) -> sleep(me)   /* the walk: room is tight */
    :: is_going && ended < target[me] -> break                     /* room isn't short any more */
    :: !is_going || ended >= target[me] -> break
    od;
    /* what was hidden before is freed, or there is room without that */
    assert(!is_going || ended < target[me] || !was_unseen[me] && !was_held[me]);
    d_step { is_waiting[me] = 0; target[me] = 0; was_unseen[me] = 0; was_held[me] = 0 };
    UNLOCK(monitor) }
}

inline note_change() {
  SECTION { LOCK(monitor); UNLOCK(monitor) }
}

inline hide() {
  SECTION { LOCK(monitor);
    is_hidden = 1;
    frees = begun + 1;
#if FAULT != 3
    want(frees);
#endif
    d_step { is_owed = 1; is_unseen = 1 };
    UNLOCK(monitor) }
}

inline begin_round() {
#ifdef OLD_ORDER
  is_last = is_served && is_moved;
#endif
  SECTION { LOCK(monitor);
#ifndef OLD_ORDER
    assert(ended == begun && wanted <= begun + 1);
#if FAULT != 3
    assert(frees <= wanted);
#endif
#if FAULT == 9
    is_last = is_moved;
#else
    is_last = is_served && is_moved;
#endif
    assert(!is_going || is_last || begun < wanted);           /* somebody needs it */
#endif
    assert(!is_last || left == SESSIONS);
    is_going = 1;
    begun++;
#ifdef OLD_ORDER
    wanted = begun;
#endif
    is_owed = 0;
    is_covered = is_hidden || is_last;
    is_whole = is_covered;
    is_hidden = 0;
    notify_all();
    UNLOCK(monitor) }
}

inline settle() {
  SECTION { LOCK(monitor);
    if :: is_scarce = 0 :: is_scarce = 1 fi;
    call_copier();
    UNLOCK(monitor) }
}

inline look() {
  SECTION { LOCK(monitor);
    if :: is_scarce = 0 :: is_scarce = 1 fi;
    call_copier();
    UNLOCK(monitor) }
}

inline end_walk() {
  SECTION { LOCK(monitor);
    if :: is_scarce = 0 :: is_scarce = 1 fi;
    walk = 0;
    call_copier();
    notify_all();
    UNLOCK(monitor) }
}

/* From here on rounds are counted from the one that has ended. */
inline count_anew() {
  d_step {
    begun--; ended--;
    if :: wanted > 0 -> wanted-- :: else fi;
    if :: frees > 0 -> frees-- :: else fi;
    for (each : 0 .. SESSIONS - 1) { if :: target[each] > 0 -> target[each]-- :: else fi }
    each = 0
  }
}

inline end_round() {
  SECTION { LOCK(monitor);
#if FAULT != 11
    if :: walk > 0 && !is_last -> want(begun + 1) :: else fi;
#endif
    ended = begun;
    is_going = !is_last;
    stirred = QUANTUM;
    call_copier();
    count_anew();
#if FAULT != 4
    notify_all();
#endif
    UNLOCK(monitor) }
}

inline await_call() {
  SECTION { LOCK(monitor);
    do
#ifdef OLD_ORDER
    :: begun >= wanted -> sleep(CLEANER)
#else
    :: begun >= wanted && !(is_served && is_moved) -> sleep(CLEANER)
#endif
    :: else -> break
    od;
    UNLOCK(monitor) }
}

/* The begin, the copier's steps, and the end. */

inline await_start() {
  SECTION { LOCK(monitor);
    if
    :: !is_going -> atomic { is_asleep[SERVER] = 1; UNLOCK(monitor) };
       is_asleep[SERVER] = 0;                                 /* woken, or its time is over */
       LOCK(monitor)
    :: else
    fi;
    UNLOCK(monitor) }
}

inline begin_step() {
  SECTION { LOCK(monitor); stirred = 0; UNLOCK(monitor) }
}

inline await_step() {
  SECTION { LOCK(monitor);
    do
    :: !is_served && !HAS_STEP -> is_resting = 1; sleep(COPIER)
    :: else -> is_resting = 0; break
    od;
    is_over = is_served;
    UNLOCK(monitor) }
}

inline end_sessions() {
  SECTION { LOCK(monitor);
    is_served = 1;
#if FAULT != 5
    notify_all();
#endif
    UNLOCK(monitor) }
}

inline end_moves() {
  SECTION { LOCK(monitor);
    is_moved = 1;
#ifdef OLD_ORDER
    wanted = begun + 1;
#endif
#if FAULT != 8
    notify_all();
#endif
    UNLOCK(monitor) }
}

/* The threads. */

proctype Session(byte me) {
  byte each;
  bit is_pressed;
#ifdef REQUESTS
  byte asked;
#define ASKS asked < REQUESTS -> asked++;
#else
#define ASKS
#endif
  are_sessions_called && (are_sessions_threaded || left == me);
  hold(me); UNLOCK(drive);                                    /* it takes its seat */
  do
  :: ASKS hold(me); UNLOCK(drive)                            /* a Read */
  :: ASKS hold(me);                                          /* a change of an object */
     TOGETHER { count(); if :: is_pressed -> UNLOCK(drive) :: else fi };
     if :: is_pressed -> is_pressed = 0; await_round(me); hold(me) :: else fi;
     TOGETHER { note_change(); UNLOCK(drive) }
  :: ASKS hold(me); TOGETHER { hide(); UNLOCK(drive) }       /* a flush, or another window */
  :: break
#ifdef FALLS_SILENT
  :: mute++; false
#endif
  od;
  left++
}

proctype Server() {
  byte each;
  await_start();
  are_sessions_called = 1;
  left == SESSIONS;
  end_sessions();
  is_keep_called = 1                                          /* the rest, where it has no thread */
}

proctype Cleaner() {
  byte each;
  bit is_last, is_covered, is_whole;
  is_keep_called && (is_clean_threaded || has_copied);
  hold(CLEANER); UNLOCK(drive);                               /* it takes its seat */
  do
  :: begin_round();
     hold_next(CLEANER);                                      /* a turn */
     TOGETHER {
       if
       :: is_covered ->
          d_step {
            is_held = is_held || is_unseen; is_unseen = 0;
            for (each : 0 .. SESSIONS - 1) {
              was_held[each] = was_held[each] || was_unseen[each]; was_unseen[each] = 0
            }
            each = 0; is_covered = 0
          }
       :: else
       fi;
       settle(); UNLOCK(drive)
     };
     if
     :: hold_next(CLEANER); TOGETHER { look(); UNLOCK(drive) }     /* another turn, or it gathers */
     :: skip
     fi;
     if
     :: walk > 0 && !is_last -> hold_next(CLEANER); TOGETHER { end_walk(); UNLOCK(drive) }
     :: walk > 1 && !is_whole -> walk--                       /* the next round goes on with it */
     :: walk == 0 || is_last -> skip
     fi;
     TOGETHER {
       d_step {
         is_held = 0;
         for (each : 0 .. SESSIONS - 1) { was_held[each] = 0 }
         each = 0
       };
       end_round()
     };
     if :: is_last -> break :: else fi;
     await_call()
  od;
  has_cleaned = 1
}

proctype Copier() {
  byte each;
  bit is_over;
  is_keep_called;
  hold(COPIER);
  if
  :: UNLOCK(drive); goto over                                 /* there is no seat */
  :: UNLOCK(drive)
  fi;
  do
  :: begin_step();
     hold_next(COPIER); TOGETHER { look(); UNLOCK(drive) };   /* it plans */
     if
     :: FINDS_A_MOVE hold_next(COPIER); TOGETHER { look(); UNLOCK(drive); has_moved = 1 }
     :: skip
     fi;
     TOGETHER { await_step(); has_moved = 0 };
     if :: is_over -> break :: else fi
  od;
over:
  end_moves();
  has_copied = 1
}

#define IS_OVER (has_cleaned && has_copied && is_served)

#ifdef FALLS_SILENT
/* No thread can take a step. Then all is over, or sessions are mute and the others wait for them
   alone. */
proctype Quiet() {
  timeout;
  assert(left + mute == SESSIONS && (mute > 0 || IS_OVER));
  assert(drive == 0 && asking == 0 && wanting == 0);
  assert(!is_owed && !is_unseen && !is_held);
  assert(ended == begun && wanted <= begun);
  assert(!is_asleep[COPIER] || !is_served && !HAS_STEP)
}
#endif

init {
  byte each;
  atomic {
#ifdef THREADED
    is_keep_threaded = 1; is_clean_threaded = 1; are_sessions_threaded = 1;
#else
    if :: is_keep_threaded = 1 :: is_keep_threaded = 0 fi;
    if :: is_clean_threaded = 1 :: is_clean_threaded = 0 fi;
    if :: are_sessions_threaded = 1 :: SESSIONS > 1 -> are_sessions_threaded = 0 fi;
#endif
    is_keep_called = is_keep_threaded;
    run Cleaner(); run Copier(); run Server();
#ifdef FALLS_SILENT
    run Quiet();
#endif
    for (each : 0 .. SESSIONS - 1) { run Session(each) }
    each = 0
  }
}

ltl ends    { <> IS_OVER } /* each run, where requests and moves end */
ltl begins  { [] (is_owed -> <> !is_owed) }                   /* a round, after each flush */
ltl waits   { [] (is_waiting[0] -> <> !is_waiting[0]) }
#ifdef FAIR
ltl asks    { [] (needs_drive[0] -> <> !needs_drive[0]) }
ltl cleans  { [] (needs_drive[CLEANER] -> <> !needs_drive[CLEANER]) }
ltl copies  { [] (needs_drive[COPIER] -> <> !needs_drive[COPIER]) }
#endif

/* A model of who writes a journal's file (crates/beam_serve: disk_journal.rt, journal_link.rt, journal_thread.rt, serve_gate.rt), for the model
   checker spin:
     spin -DDESKS=2 -DWORKERS=1 -DALWAYS=1 -a journal.pml && gcc -O2 -DSAFETY -DCOLLAPSE -o pan pan.c && ./pan -m1000000 -w26
   Each section under the node's lock waits for nothing, and is one atomic step: a command or a commit enters an entry, a drain takes all entries
   out of memory. What is done under the lock of the progress is a step for each look. Nobody holds both locks. The file is written and synced
   under no lock, by whoever has taken it: a desk or a worker that needs it, or the thread of the file.
   DESKS desks with COMMANDS commands, WORKERS workers with SLICES slices, which wait while more than MOST entries aren't written; REFUSALS writes
   are refused, and SYNCFAILS syncs fail. ALWAYS: an answer waits until its entry is on the device; else until it stands in the file.
   Claimed at each answer that is told: its entry stands in the file, or on the device. Claimed at the end, unless the file failed: each entry
   stands in the file and on the device. Claimed when nothing moves any more (invalid end states): all have ended. After a sync that failed
   nothing is written.
   Each of these leaves out one rule, and a claim then fails:
     NOA  an answer waits for the count that was read after its entry was made
     NOB  what is written is what was drained before, not what has been entered meanwhile
     NOC  who gives the file back wakes all who wait
     NOD  where the thread of the file has ended, a refused write is final
     NOE  the thread of the file wakes all who wait as it ends
     NOF  who finds that the file failed tells nothing */
#ifndef DESKS
#define DESKS 2
#endif
#ifndef WORKERS
#define WORKERS 1
#endif
#ifndef COMMANDS
#define COMMANDS 1
#endif
#ifndef SLICES
#define SLICES 2
#endif
#ifndef MOST
#define MOST 1
#endif
#ifndef REFUSALS
#define REFUSALS 1
#endif
#ifndef SYNCFAILS
#define SYNCFAILS 0
#endif
#ifndef ALWAYS
#define ALWAYS 0
#endif
#ifndef NOA
#define NOA 0
#endif
#ifndef NOB
#define NOB 0
#endif
#ifndef NOC
#define NOC 0
#endif
#ifndef NOD
#define NOD 0
#endif
#ifndef NOE
#define NOE 0
#endif
#ifndef NOF
#define NOF 0
#endif

byte entered, drained;           /* of the node's journal: all entries, and those that left memory */
byte infile, ondevice;           /* entries in the file, and on the device */
byte written, synced;            /* what the progress says of it */
bool progress;                   /* its lock */
bool has_file = true;            /* nobody has taken the file */
bool is_refused, has_thread, failed, synced_badly;
byte waits;                      /* bit i: thread i waits for `advanced` */
byte left;                       /* desks that give no more commands */
byte over;                       /* desks and workers that have ended */
byte refusals, syncfails;

#define lock atomic { !progress -> progress = true }
#define unlock progress = false
#define wake waits = 0
/* lets the lock go and waits, in one step; the lock is taken again afterwards */
#define wait_for_more(id) atomic { waits = waits | (1 << id); progress = false }; (waits & (1 << id)) == 0

#if ALWAYS
#define kept synced
#else
#define kept written
#endif

/* writes what the journal has; ok and final say how it ended */
inline write_all() {
  assert(!synced_badly);
  ok = true; final = false; wanted = entered;
  do
  :: ok && infile < wanted ->
     drained = entered; taken = drained;
     if
     :: refusals < REFUSALS -> refusals++; ok = false
     :: true ->
#if NOB
        infile = taken; taken = entered
#else
        infile = taken
#endif
     fi
  :: else -> break
  od;
#if ALWAYS
  if
  :: ok && syncfails < SYNCFAILS -> syncfails++; ok = false; final = true; synced_badly = true
  :: ok -> ondevice = infile
  :: !ok -> skip
  fi
#endif
}

/* gives the file back after it was written */
inline give_back() {
  lock;
  written = (NOB -> taken : infile); has_file = true;
  is_refused = !ok;
#if ALWAYS
  if :: ok -> synced = written :: else -> skip fi;
#endif
  if
  :: !ok && (final || (!has_thread && !NOD)) -> failed = true
  :: else -> skip
  fi;
  if :: NOC -> skip :: else -> wake fi;
  unlock
}

/* takes turns at the file until `done` */
#define take_turns(id, done) \
  do \
  :: lock; \
     if \
     :: done -> unlock; break \
     :: !(done) && failed -> unlock; break \
     :: !(done) && !failed && has_file && (!is_refused || (!has_thread && !NOD)) -> has_file = false; unlock; write_all(); give_back() \
     :: !(done) && !failed && !(has_file && (!is_refused || (!has_thread && !NOD))) -> wait_for_more(id) \
     fi \
  od

proctype desk(byte id) {
  byte n, e, taken, wanted; bool ok, final;
  do
  :: n < COMMANDS && !failed ->
#if NOA
     e = entered; entered++;
#else
     entered++; e = entered;
#endif
     take_turns(id, kept >= e);
     if
     :: failed && !NOF -> skip      /* the connections are cut off */
     :: !failed || NOF ->
#if ALWAYS
        assert(failed || ondevice >= e + NOA);
        assert(!NOF || ondevice >= e)
#else
        assert(failed || infile >= e + NOA);
        assert(!NOF || infile >= e)
#endif
     fi;
     n++
  :: else -> break
  od;
  atomic { left++; over++ }
}

proctype worker(byte id) {
  byte n, taken, wanted; bool ok, final;
  do
  :: n < SLICES && !failed ->
     entered++;
     take_turns(id, written + MOST >= entered);
     n++
  :: else -> break
  od;
  over++
}

proctype journal() {
  byte taken, wanted; bool ok, final;
  do
  :: left == DESKS || failed -> break
  :: left < DESKS && !failed && has_file && written < entered ->
     lock;
     if
     :: !failed && has_file && written < entered -> has_file = false; unlock; write_all(); give_back()
     :: else -> unlock
     fi
  od;
  lock; has_thread = false;
  if :: NOE -> skip :: else -> wake fi;
  unlock
}

init {
  byte i, taken, wanted; bool ok, final;
  atomic {
    has_thread = true;
    i = 0; do :: i < DESKS -> run desk(i); i++ :: else -> break od;
    i = 0; do :: i < WORKERS -> run worker(DESKS + i); i++ :: else -> break od;
    run journal()
  }
  (_nr_pr == 1);
  if
  :: failed -> skip
  :: else ->
     write_all();
     if
     :: ok -> ondevice = infile; assert(infile == entered && ondevice == entered)
     :: else -> skip
     fi
  fi
}

/* A model of the workers of crates/beam_sched (worker.rt, locked_node.rt, scan.rt, idle_workers.rt), for the model checker spin:
     spin -DNW=2 -DNP=1 -DNOMEM=1 -DKC=2 -a lanes.pml && gcc -O2 -DSAFETY -DCOLLAPSE -DVECTORSZ=2048 -o pan pan.c && ./pan -E -m2000000 -w24
   Each section under the node's lock waits for nothing, and is one atomic step: so are short turns under the lock (turns.rt), at most TURNS in
   one, with 0 none. Each queue that is asked for a process is a step of its own,
   and so is what an idle worker does under the lock of those that wait (il). Nobody holds both. Time: a worker that sleeps until a moment may
   wake at any step; a scan finds deadlines come or not, as it likes, unless it was made because one has come.
   A slice is short or not, as it likes (few), and after a short one a worker may try for the token (baton): how many it had isn't counted.
   NW workers, NP processes, MOST found at a scan, NOMEM refusals of memory in all, of whatever takes some, KC commands; the client, whose
   queue has the number NW, then closes the queues, stops the workers, or stays. With FULL a commit or a scan may find the journal full, and
   stops the workers.
   Claimed at each step: a process waits in at most one queue, once, and just those in state queued (marked) do. Claimed when nothing moves any
   more: no process can go unless the workers were stopped; no process waits with a deadline unless the queues are closed or the workers
   stopped; all workers have ended if it is one of these, and none otherwise; and unless they were stopped nothing is left in the queues.
   Each of these leaves out one rule, and a claim then fails:
     NOA  rows that end in a wait with a kept deadline tell it
     NOB  a wait that a later part of a scan ends for a process behind it counts as a change
     NOC  only a scan from the first process on forgets that something was deferred
     NOD  a scan to which memory was refused is deferred
     NOE  no worker ends while something is deferred
     NOG  rows that aren't self-contained are a change
     NOK  who ends wakes all others
     NOL  a scan that can't enqueue a process is deferred
     NOM  a process that waits in a queue has the state queued
     NOP  a process is enqueued after its commit
     NOQ  a command that may concern any process is a change
     NOR  an idle worker is counted before it asks the queues for the last time
     NOS  who stops the workers wakes all
     NOT  an idle worker scans where that is wanted
     NOU  a worker that finds nothing gives the token back before it asks the queues for the last time
     NOV  a worker stands back only while another one has the token
     NOW  turns under the lock that leave somebody ready are a change
     NOX  a process that goes on after its turn has the state queued until it is checked out */
#ifndef NW
#define NW 2
#endif
#ifndef NP
#define NP 1
#endif
#ifndef MOST
#define MOST 1
#endif
#ifndef NOMEM
#define NOMEM 1
#endif
#ifndef KC
#define KC 2
#endif
#ifndef FULL
#define FULL 0
#endif
#ifndef NOA
#define NOA 0
#endif
#ifndef NOB
#define NOB 0
#endif
#ifndef NOC
#define NOC 0
#endif
#ifndef NOD
#define NOD 0
#endif
#ifndef NOE
#define NOE 0
#endif
#ifndef NOG
#define NOG 0
#endif
#ifndef NOK
#define NOK 0
#endif
#ifndef NOL
#define NOL 0
#endif
#ifndef NOM
#define NOM 0
#endif
#ifndef NOP
#define NOP 0
#endif
#ifndef NOQ
#define NOQ 0
#endif
#ifndef NOR
#define NOR 0
#endif
#ifndef NOS
#define NOS 0
#endif
#ifndef NOT
#define NOT 0
#endif
#ifndef NOU
#define NOU 0
#endif
#ifndef NOV
#define NOV 0
#endif
#ifndef NOW
#define NOW 0
#endif
#ifndef NOX
#define NOX 0
#endif
#ifndef TURNS
#define TURNS 2
#endif
#define NONE 0
#define RUN 1
#define WAIT 2
#define ENDED 3
#define NQ (NW+1)
/* pids are 1..NP; index 0 unused */
byte st[NP+1]; bit transit[NP+1], held[NP+1], dl[NP+1];
bit out[NP+1], marked[NP+1]; byte times[NP+1];
chan queue[NQ] = [NP+1] of { byte };
bit changed=0, due=0, retry=0; byte after=0;               /* behind the node's lock; read without it */
bit il=0, closed=0, waiting[NW]; byte sleepers=0; bit stopped=0, baton=0;
byte ended=0, nomem=0;
#define IS_WANTED (changed || after!=0)
#define READY(p) (st[p]==RUN || (st[p]==WAIT && transit[p]))
#define IS_AWAKE(p) ((st[p]==RUN || st[p]==WAIT) && !held[p])
#define REFUSED nomem<NOMEM -> nomem++

/* ThreadContext::enqueue; r: 0 done, 1 refused */
inline put(at, one) {
  r=0;
  if
  :: marked[one] || out[one] -> skip
  :: else ->
     if
     :: times[one]++; assert(times[one]==1); if :: NOM -> skip :: else -> marked[one]=1 fi; queue[at]!one
     :: REFUSED; r=1
     fi
  fi }
/* LockedNode::enqueue */
inline announce(at, one) { if :: READY(one) && !held[one] -> put(at, one); if :: r -> changed=1; r=0 :: else fi :: else fi }
inline sends(at, one) { if :: st[one]==RUN || st[one]==WAIT -> transit[one]=1 :: else fi }
inline notify_one() { /* any of those that wait */
  if
  :: waiting[0] -> waiting[0]=0
  :: NW>1 && waiting[1%NW] -> waiting[1%NW]=0
  :: NW>2 && waiting[2%NW] -> waiting[2%NW]=0
  :: else
  fi }
inline notify_all() { for (i : 0 .. NW-1) { waiting[i]=0 } }
inline wake() { if :: sleepers>0 -> atomic { il==0 -> notify_one() } :: else fi }
inline stop() { stopped=1; atomic { il==0 -> if :: NOS -> notify_one() :: else -> notify_all() fi; i=0 } }
/* RecentSlices: tries for the token, and gives it back if it has it */
inline take_baton() { if :: !baton -> baton=1; has=1 :: else fi }
inline give_baton() { if :: has -> baton=0; has=0 :: else fi }
/* the next one that is ready, if it isn't checked out */
inline next_ready() {
  if :: over -> break :: else fi;
  i=1; do :: i>NP -> break :: i<=NP && READY(i) && !held[i] && i!=q -> break :: else -> i++ od;
  if :: i>NP -> i=0; break :: i<=NP && out[i] -> i=0; break :: else -> q=i; i=0 fi }
inline took(at, one) { queue[at]?one; times[one]--; if :: at==w && own>0 -> own-- :: else fi }

proctype worker(byte w) {
  byte p=0, q=0, i=0, k=0, left=0, own=0; bit r=0, woke=0, nap=0, goes_on=0, over=0, refused=0, behind=0, fdue=0, isfull=0, few=0, more=0, apart=0, is_counted=0, has=0, gives=0, tries=0, back=0;
 turn_:
  if :: stopped -> goto end_ :: else fi;
  if
  :: atomic { left==0 && (IS_WANTED || due || retry) ->
       due=0; if :: after==0 || NOC -> retry=0 :: else fi; if :: after==0 -> changed=0 :: else fi;
       for (i : 1 .. NP) { if
         :: !refused && st[i]==WAIT && dl[i] && !out[i] -> st[i]=RUN; dl[i]=0; if :: NOB==0 && i<=after -> behind=1 :: else fi
         :: !refused && st[i]==WAIT && dl[i] && !out[i] && REFUSED; refused=1
         :: !refused && st[i]==WAIT && dl[i] && !woke -> skip
         :: else fi };
       for (i : 1 .. NP) { if :: st[i]==WAIT && dl[i] && !refused -> fdue=1 :: else fi };
       if :: NOD -> refused=0 :: else fi;
       if :: FULL -> isfull=1 :: skip fi;
       k=0; i=after+1; after=0;
       do
       :: i>NP -> break
       :: i<=NP && !READY(i) -> i++
       :: i<=NP && READY(i) -> if :: !held[i] -> put(w, i); if :: r -> r=0; if :: NOL -> skip :: else -> refused=1 fi :: else -> own++ fi :: else fi;
          k++; if :: k==MOST && i<NP -> after=i; break :: else -> i++ fi
       od;
       if :: own>len(queue[w]) -> own=len(queue[w]) :: else fi;
       due=due||fdue; changed=changed||behind; if :: refused -> retry=1 :: else fi;
       refused=0; behind=0; fdue=0; woke=0; i=0; k=0; left=own; more=(own>1 && !has) };
     if :: isfull -> isfull=0; stop() :: else fi;
     if :: more -> more=0; wake() :: else fi;
     goto turn_
  :: left==0 && !IS_WANTED && !(woke && (due || retry)) -> skip
  :: left>0 -> skip
  fi;
  woke=0; p=0; k=0;
  do /* its own queue, and then the others'; at each 16th turn the others' first, which is left out here */
  :: atomic { k<NQ && len(queue[(w+k)%NQ])>0 -> took((w+k)%NQ, p); if :: left>0 -> left-- :: else fi; break }
  :: atomic { k<NQ && len(queue[(w+k)%NQ])==0 -> if :: k==0 -> own=0 :: else fi; k++ }
  :: atomic { k>=NQ -> left=0; break }
  od;
  k=0;
  if :: p==0 -> atomic { if :: NOU -> skip :: else -> give_baton() fi }; goto idle_ :: else fi;
 run_:
  if :: own>0 -> wake() :: skip fi;                             /* another process is in its own queue, and nobody was woken just now */
  if :: TURNS>0 -> skip :: TURNS==0 -> goto slice_ :: TURNS>0 -> goto slice_ fi;
  atomic { /* have_turns: of p, and then of others that are ready */
    marked[p]=0; q=p; k=0; goes_on=0; over=0;
    do
    :: !READY(q) || held[q] || out[q] -> k++; over=(k>=TURNS); next_ready()
    :: READY(q) && !held[q] && !out[q] && transit[q] && REFUSED; goes_on=1; break
    :: READY(q) && !held[q] && !out[q] ->
       if :: transit[q] -> transit[q]=0; st[q]=RUN :: else fi;
       if :: skip :: select(i : 1 .. NP); sends(w, i); i=0 fi;
       if
       :: st[q]=WAIT; dl[q]=0
       :: st[q]=WAIT; dl[q]=1; due=1                            /* the moment is entered, and the wait begins */
       :: dl[q] -> st[q]=WAIT; due=1
       :: st[q]=RUN; goes_on=1; break                              /* it runs on, or its next row may take goes_on */
       :: st[q]=ENDED; transit[q]=0; dl[q]=0; break
       fi;
       k++; over=(k>=TURNS); next_ready()
    od;
    if :: goes_on && !marked[q] && !out[q] -> p=q; if :: NOX -> skip :: else -> marked[q]=1 fi :: else -> p=0 fi;
    i=1; do :: i>NP -> break :: i<=NP && READY(i) && !held[i] -> if :: NOW -> skip :: else -> changed=1 fi; break :: else -> i++ od;
    i=0; k=0; q=0; over=0; more=0; gives=0;
    if :: p==0 && !has -> tries=1 :: skip fi };
  if :: p==0 -> goto done_ :: else -> goes_on=0; tries=0 fi;
 slice_:
  atomic { /* check_out */
    marked[p]=0; r=0;
    if
    :: READY(p) && !held[p] && !out[p] -> out[p]=1; if :: transit[p] -> transit[p]=0; st[p]=RUN :: else fi   /* the deadline stays */
    :: READY(p) && !held[p] && !out[p] && REFUSED; r=1; p=0
    :: !READY(p) || held[p] || out[p] -> p=0
    fi };
  if :: r -> atomic { r=0; retry=1 } :: else fi;
  if :: p==0 -> goto turn_ :: else fi;
  atomic { /* commit_locked: what the slice did, all of it open */
    q=0; apart=1; if :: few=0 :: few=1 fi;
    if :: skip :: select(q : 1 .. NP) fi;
    if :: q!=0 && q!=p && IS_AWAKE(q) -> put(w, q); if :: r -> r=0; changed=1 :: else -> own++ fi :: else fi;
    out[p]=0;
    if
    :: st[p]==ENDED -> q=0; apart=0                             /* Gone */
    :: st[p]!=ENDED && FULL -> q=0; isfull=1
    :: st[p]!=ENDED && REFUSED; q=0; refused=1                  /* dropped for want of memory */
    :: st[p]!=ENDED -> st[p]=RUN; dl[p]=0
    :: st[p]!=ENDED -> st[p]=WAIT; dl[p]=0
    :: st[p]!=ENDED -> st[p]=WAIT; dl[p]=1; apart=0             /* a row of the node sets it */
    :: st[p]!=ENDED && dl[p] -> st[p]=WAIT                      /* waits again with the deadline that it has: a row of its own */
    :: st[p]!=ENDED -> st[p]=RUN; apart=0                       /* a row of the node */
    :: st[p]!=ENDED -> st[p]=RUN; held[p]=1                     /* at a break spot */
    :: st[p]!=ENDED -> st[p]=ENDED; transit[p]=0; dl[p]=0; apart=0
    fi;
    if :: q!=0 -> sends(w, q) :: else fi;
    if :: !apart -> select(q : 1 .. NP); if :: skip; sends(w, q) :: st[q]==NONE -> st[q]=RUN; announce(w, q); own++ :: skip fi :: else fi;
    if
    :: isfull || refused -> skip
    :: else ->
       if :: st[p]==WAIT && dl[p] && NOA==0 -> due=1 :: else fi;
       if :: !apart && NOG==0 -> changed=1 :: else fi;
       if :: NOP -> skip :: else -> announce(w, p); own++ fi
    fi;
    if :: own>len(queue[w]) -> own=len(queue[w]) :: else fi;
    more=(!few && own>1); gives=(!few && has);
    if :: few && !has -> tries=1 :: skip fi;                    /* many short ones, one after another */
    p=0; q=0; few=0; apart=0 };
 done_:
  goes_on=0;
  if :: isfull -> isfull=0; stop() :: else fi;
  if :: refused -> atomic { refused=0; retry=1 } :: else fi;
  if
  :: atomic { gives -> gives=0; give_baton(); more=1 }
  :: atomic { tries -> tries=0; take_baton(); back=(!has || NOV) }
  :: !gives && !tries -> skip
  fi;
  if :: more -> more=0; wake() :: else fi;
  if :: back -> back=0; goto back_ :: else fi;
  goto turn_;
 back_:
  atomic { il==0 -> il=1; sleepers++; is_counted=1 };
  if :: stopped -> il=0; goto leave_ :: else fi;
  atomic { if :: NOV -> skip :: else -> take_baton() fi; if :: has && !NOV -> il=0; goto leave_ :: else fi };
  goto wait_;
 idle_:
  atomic { il==0 -> il=1; if :: NOR -> skip :: else -> sleepers++; is_counted=1 fi };
  do
  :: atomic { k<NQ && len(queue[(w+k)%NQ])>0 -> took((w+k)%NQ, p); break }
  :: atomic { k<NQ && len(queue[(w+k)%NQ])==0 -> k++ }
  :: k>=NQ -> break
  od;
  k=0;
  if :: p!=0 -> il=0; goto leave_ :: else fi;
  if :: stopped -> il=0; if :: is_counted -> sleepers--; is_counted=0 :: else fi; goto end_ :: else fi;
  if :: IS_WANTED && !NOT -> il=0; goto leave_ :: else fi;
  if
  :: closed && (!retry || NOE) -> atomic { if :: NOK -> skip :: else -> notify_all() fi; i=0; il=0 }; if :: is_counted -> sleepers--; is_counted=0 :: else fi; goto end_
  :: else
  fi;
 wait_:
  atomic { if :: NOU -> give_baton() :: else fi; if :: is_counted -> skip :: else -> sleepers++; is_counted=1 fi; waiting[w]=1; woke=(due||retry||nap); nap=0; il=0 };
  if
  :: atomic { !waiting[w] && il==0 -> woke=0; nap=1 }
  :: atomic { waiting[w] && woke && il==0 -> waiting[w]=0 }
  fi;
 leave_:
  atomic { if :: is_counted -> sleepers--; is_counted=0 :: else fi };
  if :: p!=0 -> goto run_ :: else -> goto turn_ fi;
 end_:
  ended++ }

proctype client() { byte c=0, q=0, i=0; bit r=0, done=0;
  do
  :: c<KC -> c++;
     atomic {
       select(q : 1 .. NP); done=1;
       if
       :: st[q]==NONE -> st[q]=RUN; announce(NW, q)                                     /* Spawn */
       :: st[q]==RUN || st[q]==WAIT -> transit[q]=1; announce(NW, q)                    /* Send */
       :: held[q] && !out[q] -> held[q]=0; announce(NW, q)                              /* Resume */
       :: (st[q]==RUN || st[q]==WAIT) && !out[q] -> st[q]=ENDED; held[q]=0; transit[q]=0; dl[q]=0; /* Purge, with a signal to another one */
          select(q : 1 .. NP); sends(NW, q); if :: NOQ -> skip :: else -> changed=1 fi
       :: else -> done=0
       fi };
     if :: done -> wake() :: else fi
  :: break
  od;
  if
  :: atomic { il==0 -> closed=1; notify_all(); i=0 }
  :: stop()
  :: skip           /* a client that stays connected: the queues aren't closed */
  fi }

active proctype watch() { byte i, r=0, d=0, l=0;
  atomic { timeout ->
    for (i : 1 .. NP) {
      if :: READY(i) && !held[i] -> r=1 :: else fi; if :: st[i]==WAIT && dl[i] -> d=1 :: else fi;
      assert(NOM || ((times[i]==1 && marked[i]) || (times[i]==0 && !marked[i]))) };
    for (i : 0 .. NQ-1) { if :: len(queue[i])>0 -> l=1 :: else fi };
    assert(!il);
    assert(stopped || !r);                       /* nobody can go while all sleep or have ended */
    assert(stopped || !l);                       /* nothing is left in the queues */
    assert(closed || stopped || !d);             /* no deadline that nobody waits for */
    assert(!(closed || stopped) || ended==NW);   /* closed or stopped: all ended */
    assert(closed || stopped || ended==0) } }

init { byte i; atomic { for (i : 0 .. NW-1) { run worker(i) }; run client() } }

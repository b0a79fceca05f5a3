/* The protocol of a live tree: lock, place, intent, queue and answers (tools/txforest). Two jobs and two settlers; each may be
   killed between any two steps, and once the power may fail between any two steps. Checked by spin, by checks/models.sh.

   The steps have the names of the code:
     lock.lock, lock.wait_for            LOCK
     queue.enqueue, Waiting.withdraw     queue[j]: waits, gone
     queue.take, Taken.put_back          queue[j]: taken, waits
     place.new_place                     place p: MADE
     commit.write_intent                 staged files, answers, intent.new; fsync of the place, fsync of its home
     commit.commit                       rename of intent.new to intent; fsync of the place: that is the commit
     operations.perform                  two operations, `one` and `two`, then the sync of the touched directories
     commit.give_answers, queue.deliver  answers go from the place into the queue
     place.Place.clear                   the intent goes, then the place

   The tree is two files, each of which holds the set of the jobs whose change is in it; a job changes both. A name that was
   changed and not synced is on the device or not, each by itself, when the power fails. What a place has and what `home`
   has are two directories: a place that was removed may be back, until its home is synced.

   Faults that the model has to find, by -D: NO_PLACE_SYNC, NO_HOME_SYNC, NO_TREE_SYNC, ANSWER_APART, ANSWER_FIRST, NO_SETTLE,
   CLEAR_FIRST, LEAVE_LATE. */

#define JOBS 2
#define PLACES 3
#ifndef KILLS
#define KILLS 1
#endif
#define FREE 255

/* of a place, in memory and on the device */
#define NONE 0
#define MADE 1
#define INTENT 2

/* of a job in the queue */
#define NOT 0
#define WAITS 1
#define TAKEN 2
#define GONE 3

/* what the caller of a job was told */
#define NOTHING 0
#define DONE 1
#define LATER 2          /* status 14: committed, and the next job puts the rest of it in place */
#define GAVE_UP 3        /* status 11: the lock was not had in time, nothing was changed */
#define REFUSED 4        /* status 9 and others: nothing was changed */

byte lock_of = FREE;
byte epoch = 0;          /* how often the machine was started */
byte kills = KILLS;
byte refusals = 1;       /* how often the system refuses an operation behind the commit */
bool power = true;       /* whether it may still fail */
byte ended = 0;

byte queue[JOBS];
bool answered[JOBS];     /* the file `answer` is there */
bool alive[JOBS];        /* the caller holds the lock of its directory in the queue */
byte told[JOBS];
byte commits[JOBS];      /* how many commits have the job in them */

byte one = 0, two = 0;           /* the files of the tree: sets of jobs */
byte one_disk = 0, two_disk = 0; /* the same, as last synced */

byte place[PLACES];      /* in memory */
byte place_disk[PLACES]; /* on the device */
byte jobs[PLACES];       /* the jobs that are done in it */
byte old[PLACES];        /* what its operations expect to find */
byte answers[PLACES];    /* those whose answers stand in it */

#define HAS(set, j) ((set) & (1 << (j)))

/* One step of a process that was started in the epoch `mine`: it is done, or the process is killed before it. */
#define STEP(what) \
    atomic { \
        if \
        :: epoch != mine -> goto dead \
        :: else -> \
            if \
            :: what \
            :: kills > 0 -> kills--; goto killed \
            fi \
        fi \
    }

/* The power fails: all processes are gone, and what was not synced is there or not. */
inline fail() {
    byte p = 0, j = 0;
    d_step { power = false; epoch++; lock_of = FREE; j = 0; do :: j < JOBS -> alive[j] = false; queue[j] = NOT; answered[j] = false; j++ :: else -> break od }
    if :: one = one_disk :: skip fi;
    if :: two = two_disk :: skip fi;
    one_disk = one; two_disk = two;
    p = 0;
    do
    :: p < PLACES ->
        if
        :: place[p] == INTENT && place_disk[p] < INTENT ->
            /* its intent was not synced: there or not, but only where the place is there */
            if
            :: place_disk[p] == MADE
            :: place_disk[p] == NONE
            fi;
            if :: place[p] = place_disk[p]; forget(p) :: skip fi
        :: else -> if :: place[p] = place_disk[p] :: skip fi
        fi;
        place_disk[p] = place[p];
        p++
    :: else -> break
    od
}

/* The commit of a place never was. */
inline forget(p) {
    j = 0;
    do
    :: j < JOBS -> if :: HAS(jobs[p], j) -> commits[j]-- :: else fi; j++
    :: else -> break
    od
}

/* fsync of the directory of the places */
inline sync_home() {
    d_step {
        byte h = 0;
        do
        :: h < PLACES ->
            if
            :: place[h] == NONE -> place_disk[h] = NONE; jobs[h] = 0; old[h] = 0; answers[h] = 0
            :: place[h] != NONE && place_disk[h] == NONE -> place_disk[h] = MADE
            :: else
            fi;
            h++
        :: else -> break
        od;
        h = 0
    }
}

/* An operation: what is expected there is exchanged with the new file; done twice it changes nothing. */
#define STORE(file, p) \
    d_step { if :: file == old[p] -> file = old[p] | jobs[p] :: else -> assert(file == (old[p] | jobs[p])) fi }

/* operations.perform, commit.give_answers, Place.clear: what stands behind a commit, here or by who settles */
inline finish(p) {
    STEP(STORE(one, p));
    if
    :: refusals > 0 -> refusals--; goto later
    :: true
    fi;
    STEP(STORE(two, p));
#ifdef CLEAR_FIRST
    STEP(place[p] = NONE);
#endif
#ifndef NO_TREE_SYNC
    STEP(one_disk = one; two_disk = two);
#endif
    g = 0;
    do
    :: g < JOBS ->
        if
        :: HAS(answers[p], g) ->
            STEP(if :: queue[g] != NOT && alive[g] -> answered[g] = true :: else fi);
            STEP(answers[p] = answers[p] & ~(1 << g))
        :: else
        fi;
        g++
    :: else -> g = 0; break
    od;
    STEP(if :: place[p] == INTENT -> place[p] = MADE :: else fi);
    STEP(place[p] = NONE)
}

/* settle.settle: the places that stand, one after another */
inline settle() {
    do
    :: atomic {
        if
        :: epoch != mine -> goto dead
        :: else ->
            s = 0;
            do :: s < PLACES && place[s] == NONE -> s++ :: else -> break od;
            if
            :: s == PLACES -> s = 0; break
            :: else
            fi
        fi
       }
       if
       :: place[s] == INTENT ->
           STEP(place_disk[s] = INTENT);
           finish(s)
       :: else -> STEP(place[s] = NONE)
       fi
    od
}

/* batch.Batch.do: the leader's own job and those that wait */
inline lead(own) {
    mates = 1 << own;
    k = 0;
    do
    :: k < JOBS ->
        if
        :: k != own && queue[k] != NOT && !alive[k] -> STEP(queue[k] = NOT; answered[k] = false)
        :: k != own && alive[k] && !answered[k] && queue[k] != NOT ->
            STEP(if :: queue[k] == WAITS || queue[k] == TAKEN -> queue[k] = TAKEN; mates = mates | (1 << k) :: else fi)
        :: else
        fi;
        k++
    :: else -> k = 0; break
    od;
    STEP(
        assert(one == two);
        p = 0;
        do :: place[p] != NONE || place_disk[p] != NONE -> p++ :: else -> break od;
        assert(p < PLACES);
        place[p] = MADE; jobs[p] = mates; old[p] = one
    );
    STEP(answers[p] = mates & ~(1 << own));
#ifdef ANSWER_FIRST
    k = 0;
    do
    :: k < JOBS -> if :: HAS(answers[p], k) -> STEP(answered[k] = true) :: else fi; k++
    :: else -> break
    od;
#endif
    if
    :: true
    :: STEP(place[p] = NONE); goto refused   /* no value, no room, somebody changed the tree, .. */
    fi;
#ifndef NO_HOME_SYNC
    STEP(sync_home());
#endif
    STEP(
        place[p] = INTENT;
        d_step { k = 0; do :: k < JOBS -> if :: HAS(mates, k) -> commits[k]++; assert(commits[k] == 1) :: else fi; k++ :: else -> break od; k = 0 }
    );
#ifdef ANSWER_APART
    STEP(answers[p] = 0);
#endif
#ifndef NO_PLACE_SYNC
    STEP(if :: place_disk[p] != NONE -> place_disk[p] = INTENT :: else fi);
#endif
    finish(p);
#ifdef ANSWER_APART
    k = 0;
    do
    :: k < JOBS -> if :: k != own && HAS(mates, k) -> STEP(answered[k] = true) :: else fi; k++
    :: else -> break
    od
#endif
}

/* txforest-apply: apply.answer_of */
proctype Job(byte j) {
    byte mine, s, g, k, p, mates;
    byte me = j;
    mine = epoch;
    alive[j] = true;
    if
    :: STEP(if :: lock_of == FREE -> lock_of = me; goto had :: else fi)   /* apply.had: the lock at once */
    :: true
    fi;
    STEP(queue[j] = WAITS);                                             /* queue.enqueue */
    do
    :: atomic { lock_of == FREE && epoch == mine -> lock_of = me; goto had }
    :: atomic { epoch != mine -> goto dead }
    :: atomic { kills > 0 && epoch == mine -> kills--; goto killed }
    :: atomic { queue[j] == WAITS && epoch == mine -> queue[j] = GONE; told[j] = GAVE_UP; goto out } /* Waiting.withdraw */
    od;
had:
    if :: answered[j] -> goto done :: else fi;
#ifndef NO_SETTLE
    settle();
#endif
    if :: answered[j] -> goto done :: else fi;
    lead(j);
done:
    STEP(told[j] = DONE);
    goto leave;
later:                                                                 /* the system refused a part for now */
    STEP(if :: commits[j] == 1 -> told[j] = LATER :: else -> told[j] = REFUSED fi);
    goto leave;
refused:
    k = 0;
    do
    :: k < JOBS ->
        if
        :: k != j && HAS(mates, k) && queue[k] == TAKEN && !answered[k] -> STEP(queue[k] = WAITS) /* Taken.put_back */
        :: else
        fi;
        k++
    :: else -> k = 0; break
    od;
    STEP(told[j] = REFUSED);
leave:
#ifndef LEAVE_LATE
    STEP(queue[j] = NOT; answered[j] = false; alive[j] = false);       /* Waiting.remove, before the lock goes */
#endif
    STEP(lock_of = FREE);
out:
    skip;
    d_step { queue[j] = NOT; answered[j] = false; alive[j] = false };
    goto end;
killed:
    skip;
    d_step { if :: lock_of == me -> lock_of = FREE :: else fi; alive[j] = false };
dead:
end:
    skip;
    d_step { mine = 0; s = 0; g = 0; k = 0; p = 0; mates = 0; ended++ }
}

/* txforest-apply --settle */
proctype Settler(byte me) {
    byte mine, s, g;
    mine = epoch;
    do
    :: atomic { lock_of == FREE && epoch == mine -> lock_of = me; break }
    :: atomic { epoch != mine -> goto dead }
    od;
    settle();
later:
    STEP(lock_of = FREE);
    goto end;
killed:
    skip;
    d_step { if :: lock_of == me -> lock_of = FREE :: else fi };
dead:
end:
    skip;
    d_step { mine = 0; s = 0; g = 0; ended++ }
}

/* The power fails at some moment, or never. A settler that is started behind that is a new process. */
proctype Power() {
    if
    :: atomic { fail() }
    :: true
    fi;
    power = false;
    ended++
}

/* Behind all of them somebody settles whom nothing stops: then each promise has to hold. */
proctype Last() {
    byte mine, s, g, j;
    (ended == 5);
    atomic { mine = epoch; kills = 0; refusals = 0; lock_of = 9 };
    settle();
later:
killed:
dead:
    s = 0;
    do :: s < PLACES -> assert(place[s] == NONE); s++ :: else -> break od;
    assert(one == two);
    j = 0;
    do
    :: j < JOBS ->
        assert(commits[j] <= 1);
        assert((HAS(one, j) != 0) == (commits[j] == 1));
        assert(told[j] != DONE || HAS(one, j));
        assert(told[j] != LATER || HAS(one, j));
        assert(told[j] != GAVE_UP || !HAS(one, j));
        assert(told[j] != REFUSED || !HAS(one, j));
        j++
    :: else -> break
    od
}

init {
    atomic {
        run Job(0);
        run Job(1);
        run Settler(2);
        run Settler(3);
        run Power();
        run Last()
    }
}

/* Each of N cores adds 1 under an elided lock, TURNS times. A step is one that touches memory, or that begins, ends or
 * aborts a transaction; jumps and counts of turns are part of the step before. A transaction that another core's access
 * hits is doomed, and its next step is its abort. */
byte mutex, count;
bool read_mutex[N], has_count[N], doomed[N];
byte kept[N];

inline leave(me) {
    read_mutex[me] = false;
    has_count[me] = false;
    doomed[me] = false;
    kept[me] = 0
}

/* A store to the lock, or an access to the counter, dooms each other transaction that has the line. */
inline hit_mutex(me) {
    i = 0;
    do
    :: i < N -> doomed[i] = doomed[i] || (i != me && read_mutex[i]); i++
    :: else -> break
    od;
    i = 0
}

inline hit_count(me) {
    i = 0;
    do
    :: i < N -> doomed[i] = doomed[i] || (i != me && has_count[i]); i++
    :: else -> break
    od;
    i = 0
}

active [N] proctype core() {
    byte turns = TURNS, eax, i;
next:
    skip;
    if
    :: d_step { doomed[_pid] -> leave(_pid) }; goto fall
    :: d_step { !doomed[_pid] -> read_mutex[_pid] = true; eax = mutex }
    fi;
    if
    :: d_step { eax != 0 -> eax = 0; leave(_pid) }; goto fall
    :: d_step { eax == 0 && doomed[_pid] -> leave(_pid) }; goto fall
    :: d_step { eax == 0 && !doomed[_pid] -> has_count[_pid] = true; hit_count(_pid); kept[_pid] = count + 1 }
    fi;
    if
    :: d_step { doomed[_pid] -> leave(_pid) }; goto fall
    :: d_step { !doomed[_pid] -> count = kept[_pid]; leave(_pid) }; goto done
    fi;
fall:
    mutex == 0;
    d_step { eax = mutex; mutex = 1; hit_mutex(_pid) };
    if
    :: eax != 0 -> eax = 0; goto fall
    :: else
    fi;
    d_step { hit_count(_pid); eax = count };
    d_step { count = eax + 1; eax = 0; hit_count(_pid) };
    d_step { mutex = 0; hit_mutex(_pid) };
done:
    turns--;
    if
    :: turns > 0 -> goto next
    :: else
    fi
}

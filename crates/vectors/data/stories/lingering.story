# Which code a call, a return and a catch enter, and which processes a purge ends.

story an external call is looked up when it is made and not when its caller is loaded
load caller.S = versions 1 0
spawn caller:ask [] = pid 1
steps 1 100 = 3 ended {undef,[]} []
load h1.S = versions 2 0
spawn caller:ask [] = pid 2
steps 2 100 = 7 ended normal 1
load h2.S = versions 3 2
spawn caller:ask [] = pid 3
steps 3 100 = 7 ended normal 2
delete h = false
soft_purge h = true
delete h = true
spawn caller:ask [] = pid 4
steps 4 100 = 3 ended {undef,[]} []

story a return goes to the code that made the call
load back1.S = versions 1 0
spawn back:a [] = pid 1
steps 1 2 = 2 goes on
load back2.S = versions 2 1
steps 1 100 = 5 ended normal 1
spawn back:a [] = pid 2
steps 2 100 = 7 ended normal 2

story a process that has returned to old code lingers there
load g1.S = versions 1 0
spawn g:a [] = pid 1
steps 1 2 = 2 goes on
load g2.S = versions 2 1
steps 1 3 = 3 goes on
soft_purge g = false
steps 1 100 = 2 ended normal 2
soft_purge g = true

story a purge looks at frames and not only at places
load back1.S = versions 1 0
spawn back:a [] = pid 1
steps 1 2 = 2 goes on
load back2.S = versions 2 1
steps 1 1 = 1 goes on
versions back = versions 2 1
purge back = true
versions back = versions 2 0
steps 1 1 = refused NoProcess

story a catch goes to the code that it stands in, and a process lingers where its tag lies
load tag1.S = versions 1 0
spawn tag:a [] = pid 1
spawn tag:a [] = pid 2
steps 1 3 = 3 goes on
steps 2 3 = 3 goes on
load tag2.S = versions 2 1
steps 1 1 = 1 goes on
steps 2 1 = 1 goes on
soft_purge tag = false
steps 1 100 = 6 ended normal 1
purge tag = true
steps 2 1 = refused NoProcess
spawn tag:a [] = pid 3
steps 3 100 = 10 ended normal 2

story a purge ends those that linger and nobody else
load g1.S = versions 1 0
spawn g:a [] = pid 1
spawn g:a [] = pid 2
spawn g:b [] = pid 3
steps 1 2 = 2 goes on
steps 3 2 = 2 goes on
load g2.S = versions 2 1
spawn g:a [] = pid 4
steps 4 2 = 2 goes on
purge g = true
steps 1 1 = refused NoProcess
steps 2 100 = 7 ended normal 2
steps 3 1 = refused NoProcess
steps 4 100 = 5 ended normal 2

story a soft purge keeps old code as long as somebody lingers there
load h1.S = versions 1 0
spawn h:n [1] = pid 1
steps 1 1 = 1 goes on
load h2.S = versions 2 1
soft_purge h = false
versions h = versions 2 1
steps 1 100 = 7 ended normal 2
soft_purge h = true
versions h = versions 2 0

story a load ends those that linger in deleted code
load h1.S = versions 1 0
spawn h:n [1] = pid 1
steps 1 1 = 1 goes on
delete h = true
soft_purge h = false
versions h = versions 0 1
load h2.S = versions 2 0
steps 1 100 = refused NoProcess

story a file that can't be loaded purges nothing
load g1.S = versions 1 0
spawn g:a [] = pid 1
steps 1 2 = 2 goes on
load g2.S = versions 2 1
steps 1 1 = 1 goes on
load g3.S cut 20 = refused Truncated
versions g = versions 2 1
steps 1 0 = 0 goes on
load_strict g3.S cut 20 = refused Truncated
load_strict g3.S = refused NotPurged
steps 1 0 = 0 goes on
load g3.S = versions 3 2
steps 1 1 = refused NoProcess

story a third load ends those that linger in the oldest code alone
load g1.S = versions 1 0
spawn g:a [] = pid 1
steps 1 2 = 2 goes on
load g2.S = versions 2 1
spawn g:a [] = pid 2
steps 2 2 = 2 goes on
load g3.S = versions 3 2
steps 1 1 = refused NoProcess
steps 2 100 = 5 ended normal 3

story a purge frees the names of those that it ends
load names.S = versions 1 0
spawn n:serve [] = pid 1
steps 1 100 = 6 waits
load names.S = versions 2 1
send server hello = done
purge n = true
send server hello = refused NoProcess
deliver 1 = refused NoProcess
ready 0 = none
spawn n:serve [] = pid 2
steps 2 100 = 6 waits
send server hello = done
deliver 2 = done
steps 2 100 = 3 ended normal hello

story a purge ends a process that waits, and its deadline goes with it
load w.S = versions 1 0
spawn w:f [] = pid 1
steps 1 100 = 3 waits
next_deadline = 100 1
load w.S = versions 2 1
purge w = true
next_deadline = none
clock 100 = done
timeout 1 = refused NoProcess

story a purge without old code ends nobody
load h1.S = versions 1 0
spawn h:n [2] = pid 1
steps 1 2 = 2 goes on
purge h = false
soft_purge h = true
purge nobody = false
soft_purge nobody = true
delete nobody = false
versions nobody = versions 0 0
steps 1 100 = 9 ended normal 1

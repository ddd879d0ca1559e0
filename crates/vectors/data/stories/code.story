# Current and old code.

story local calls stay and external calls enter current code
load h1.S = versions 1 0
spawn h:n [2] = pid 1
steps 1 3 = 3 goes on
load h2.S = versions 2 1
steps 1 3 = 3 goes on
soft_purge h = false
steps 1 100 = 5 ended normal 2

story a server goes over to new code
load server1.S = versions 1 0
spawn u:loop [] = pid 1
steps 1 100 = 3 waits
load server2.S = versions 2 1
soft_purge u = false
send 1 upgrade = done
deliver 1 = done
steps 1 100 = 6 waits
soft_purge u = true
send 1 stop = done
deliver 1 = done
steps 1 100 = 5 ended normal 2

story a purge ends a process that returns to old code
load g1.S = versions 1 0
spawn g:a [] = pid 1
steps 1 2 = 2 goes on
load g2.S = versions 2 1
steps 1 1 = 1 goes on
purge g = true
steps 1 1 = refused NoProcess
purge g = false
versions g = versions 2 0

story a soft purge ends no process
load g1.S = versions 1 0
spawn g:a [] = pid 1
steps 1 2 = 2 goes on
load g2.S = versions 2 1
steps 1 1 = 1 goes on
soft_purge g = false
versions g = versions 2 1
steps 1 4 = 4 ended normal 2
soft_purge g = true
versions g = versions 2 0

story a call to deleted code is undefined
load g1.S = versions 1 0
spawn g:a [] = pid 1
steps 1 2 = 2 goes on
delete g = true
delete g = false
steps 1 100 = 1 ended {undef,[]} []

story deleted code runs on until it calls itself by name
load h1.S = versions 1 0
spawn h:n [1] = pid 1
steps 1 1 = 1 goes on
delete h = true
steps 1 100 = 5 ended {undef,[]} []
soft_purge h = true
versions h = versions 0 0

story a third load ends a process that lingers
load g1.S = versions 1 0
spawn g:a [] = pid 1
steps 1 2 = 2 goes on
load g2.S = versions 2 1
steps 1 1 = 1 goes on
load_strict g3.S = refused NotPurged
steps 1 0 = 0 goes on
load g3.S = versions 3 2
steps 1 1 = refused NoProcess

story a process that has not begun enters current code
load g1.S = versions 1 0
spawn g:a [] = pid 1
load g2.S = versions 2 1
purge g = false
steps 1 100 = 7 ended normal 2

story a purge leaves processes that left old code
load h1.S = versions 1 0
spawn h:n [0] = pid 1
steps 1 2 = 2 goes on
load h2.S = versions 2 1
steps 1 1 = 1 goes on
purge h = false
steps 1 100 = 2 ended normal 2

story instances are numbered over the life of the node
load h1.S = versions 1 0
load h1.S = versions 2 1
load_strict h1.S = refused NotPurged
load h1.S = versions 3 2
delete h = false
purge h = false
delete h = true
versions h = versions 0 3
load_strict h1.S = refused NotPurged
load h1.S = versions 4 0
load_strict h1.S = versions 5 4
load g1.S = versions 6 0

story the module erlang cannot be loaded
load erlang.S = refused Sticky
load_strict erlang.S = refused Sticky
versions erlang = versions 0 0
delete erlang = false
purge erlang = false
soft_purge erlang = true

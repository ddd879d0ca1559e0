# Upgrade lists: modules that are loaded together, or not at all.

story two modules go over to new code together
load h1.S = versions 1 0
load g1.S = versions 2 0
atomic_load strict h2.S g2.S = upgraded 3 1 4 2
versions h = versions 3 1
versions g = versions 4 2
spawn h:n [0] = pid 1
steps 1 100 = 5 ended normal 2
spawn g:a [] = pid 2
steps 2 100 = 7 ended normal 2

story modules are numbered in the order of their list, also those that are new
load g1.S = versions 1 0
atomic_load strict h1.S g2.S t.S = upgraded 2 0 3 1 4 0
load h2.S = versions 5 2

story a strict list is refused where one module has old code
load h1.S = versions 1 0
load g1.S = versions 2 0
atomic_load strict h2.S g2.S = upgraded 3 1 4 2
atomic_load strict h3.S g3.S = refused NotPurged
versions h = versions 3 1
versions g = versions 4 2
purge h = false
atomic_load strict h3.S g3.S = refused NotPurged
versions h = versions 3 0
versions g = versions 4 2
soft_purge g = true
atomic_load strict g3.S h3.S = upgraded 5 4 6 3

story a soft list is refused where a process lingers, and a hard one ends it
load h1.S = versions 1 0
load g1.S = versions 2 0
spawn g:a [] = pid 1
steps 1 2 = 2 goes on
atomic_load strict h2.S g2.S = upgraded 3 1 4 2
atomic_load soft h3.S g3.S = refused NotPurged
versions h = versions 3 1
versions g = versions 4 2
steps 1 1 = 1 goes on
atomic_load soft g3.S h3.S = refused NotPurged
atomic_load hard h3.S g3.S = upgraded 5 3 6 4
steps 1 1 = refused NoProcess
atomic_load soft g1.S h2.S = upgraded 7 6 8 5

story a soft list goes through once nobody lingers
load g1.S = versions 1 0
spawn g:a [] = pid 1
steps 1 2 = 2 goes on
load g2.S = versions 2 1
atomic_load soft h1.S g3.S = refused NotPurged
steps 1 4 = 4 goes on
versions h = versions 0 0
atomic_load soft h1.S g3.S = refused NotPurged
steps 1 100 = 1 ended normal 2
atomic_load soft h1.S g3.S = upgraded 3 0 4 2

story a hard list ends those that linger in its modules and nobody else
load g1.S = versions 1 0
load h1.S = versions 2 0
spawn g:a [] = pid 1
spawn h:n [2] = pid 2
spawn g:a [] = pid 3
steps 1 2 = 2 goes on
steps 2 2 = 2 goes on
atomic_load hard g2.S h2.S = upgraded 3 1 4 2
spawn g:a [] = pid 4
steps 4 2 = 2 goes on
steps 2 1 = 1 goes on
atomic_load hard h3.S = upgraded 5 4
steps 2 1 = refused NoProcess
steps 1 1 = 1 goes on
atomic_load hard g3.S = upgraded 6 3
steps 1 1 = refused NoProcess
steps 4 100 = 5 ended normal 3
steps 3 100 = 7 ended normal 3

story a process that lingers in two modules of a list
load caller.S = versions 1 0
load h1.S = versions 2 0
spawn caller:ask [] = pid 1
steps 1 4 = 4 goes on
atomic_load strict caller.S h2.S = upgraded 3 1 4 2
spawn caller:ask [] = pid 2
atomic_load soft h3.S = refused NotPurged
atomic_load hard h3.S caller.S = upgraded 5 4 6 3
steps 1 1 = refused NoProcess
steps 2 100 = 7 ended normal 3

story a hard list takes a process its name and its messages
load names.S = versions 1 0
spawn n:serve [] = pid 1
steps 1 100 = 6 waits
load names.S = versions 2 1
send server hello = done
atomic_load hard h1.S names.S = upgraded 3 0 4 2
send server hello = refused NoProcess
deliver 1 = refused NoProcess
ready 0 = none

story which refusal comes first
load h1.S = versions 1 0
load h1.S = versions 2 1
atomic_load strict erlang.S erlang.S = refused Sticky
atomic_load strict h2.S h3.S erlang.S = refused Sticky
atomic_load strict h2.S h3.S = refused Duplicated
atomic_load soft h2.S h2.S = refused Duplicated
atomic_load hard h2.S g1.S h3.S = refused Duplicated
atomic_load strict h2.S = refused NotPurged
versions h = versions 2 1
versions g = versions 0 0
atomic_load hard g1.S h2.S = upgraded 3 0 4 2

story a file that can't be loaded refuses the whole list
load h1.S = versions 1 0
atomic_load hard h2.S unknown_label.S g1.S = refused BadLabel
versions h = versions 1 0
versions g = versions 0 0
atomic_load hard h2.S g1.S = upgraded 2 1 3 0

story an empty list changes nothing
load h1.S = versions 1 0
spawn h:n [0] = pid 1
steps 1 2 = 2 goes on
load h2.S = versions 2 1
atomic_load strict = upgraded
atomic_load soft = upgraded
atomic_load hard = upgraded
versions h = versions 2 1
steps 1 100 = 3 ended normal 2

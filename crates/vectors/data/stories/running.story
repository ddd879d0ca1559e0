# Loading a module, starting a process, and its rows.

story a process adds the numbers down to 0 and ends
load t.S = versions 1 0
spawn t:sum [4] = pid 1
steps 1 21 = 21 goes on
steps 1 1 = 1 ended normal 10
steps 0 1 = refused NoProcess
steps 1 1 = refused NoProcess
steps 9 1 = refused NoProcess

story a file is loaded as its listing
load t.beam = versions 1 0
spawn t:sum [4] = pid 1
steps 1 100 = 22 ended normal 10

story a process that was never started has no rows, and rows of none change nothing
load t.S = versions 1 0
spawn t:sum [4] = pid 1
steps 2 1 = refused NoProcess
steps 1 0 = 0 goes on
steps 1 100 = 22 ended normal 10

story modules are numbered one after another
load erlang.S = refused Sticky
load t.S = versions 1 0
load t.S = versions 2 1
load_strict t.S = refused NotPurged
load integers.S = versions 3 0

story what isn't loaded or isn't exported is undefined
load t.S = versions 1 0
spawn u:sum [] = pid 1
steps 1 9 = 1 ended {undef,[]} []
spawn t:add [] = pid 2
steps 2 9 = 1 ended {undef,[]} []
spawn t:sum [] = pid 3
steps 3 9 = 1 ended {undef,[]} []

story a sum faults by what is added
load integers.S = versions 1 0
spawn i:plus [2,1] = pid 1
steps 1 9 = 3 ended normal 3
spawn i:plus [576460752303423487,1] = pid 2
steps 2 9 = 2 ended {system_limit,[]} []
spawn i:plus [[],1] = pid 3
steps 3 9 = 2 ended {badarith,[]} []
spawn i:plus [a,1] = pid 4
steps 4 9 = 2 ended {badarith,[]} []
spawn i:plus [-576460752303423488,-1] = pid 5
steps 5 9 = 2 ended {system_limit,[]} []

story rows can be done one at a time
load t.S = versions 1 0
spawn t:sum [1] = pid 1
steps 1 1 = 1 goes on
steps 1 1 = 1 goes on
steps 1 1 = 1 goes on
steps 1 1 = 1 goes on
steps 1 1 = 1 goes on
steps 1 1 = 1 goes on
steps 1 1 = 1 goes on
steps 1 1 = 1 goes on
steps 1 1 = 1 goes on
steps 1 1 = 1 ended normal 1

story what can't be loaded changes nothing
load t.S = versions 1 0
load t.S cut 183 = refused Truncated
load t.S cut 0 = refused Truncated
load unknown_label.S = refused BadLabel
load nowhere.S = refused ReadFailed
versions t = versions 1 0
versions u = versions 0 0

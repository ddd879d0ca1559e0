# Calls, returns, and y registers.

story call last drops the frame
load calls.S = versions 1 0
spawn c:last [7] = pid 1
steps 1 100 = 8 ended normal 7

story call ext last enters exports and natives
load calls.S = versions 1 0
spawn c:out [7] = pid 1
steps 1 100 = 4 ended normal 7
spawn c:text [abc] = pid 2
steps 2 100 = 3 ended normal [97,98,99]
spawn c:gone [] = pid 3
steps 3 100 = 3 ended {undef,[]} []

story apply calls functions and natives
load calls.S = versions 1 0
spawn c:apply [7,c,id] = pid 1
steps 1 100 = 6 ended normal 7
spawn c:apply [abc,erlang,atom_to_list] = pid 2
steps 2 100 = 5 ended normal [97,98,99]
spawn c:apply [7,c,none] = pid 3
steps 3 100 = 3 ended {undef,[]} []
spawn c:apply [7,8,id] = pid 4
steps 4 100 = 3 ended {badarg,[]} []
spawn c:apply_last [7,c,id] = pid 5
steps 5 100 = 4 ended normal 7
spawn c:apply_last [abc,erlang,atom_to_list] = pid 6
steps 6 100 = 3 ended normal [97,98,99]
spawn c:apply [name,erlang,whereis] = pid 7
steps 7 100 = 5 ended normal undefined

story a process may begin in a native
spawn erlang:atom_to_list [abc] = pid 1
steps 1 100 = 1 ended normal [97,98,99]
spawn erlang:self [] = pid 2
steps 2 100 = 1 ended normal <0.2.0>
spawn erlang:no_native [] = pid 3
steps 3 100 = 1 ended {undef,[]} []
spawn erlang:whereis [name] = pid 4
steps 4 100 = 1 ended normal undefined

story only exports of loaded modules are entered
load calls.S = versions 1 0
spawn c:hidden [] = pid 1
steps 1 100 = 1 ended {undef,[]} []
spawn c:id [] = pid 2
steps 2 100 = 1 ended {undef,[]} []
spawn no_module:id [7] = pid 3
steps 3 100 = 1 ended {undef,[]} []

story y registers are trimmed and cleared
load registers.S = versions 1 0
spawn y:trim [] = pid 1
steps 1 100 = 8 ended normal a
spawn y:clear [] = pid 2
steps 2 100 = 7 ended normal {[],[]}

story a register that was never written reads nil
load registers.S = versions 1 0
spawn y:tested [a] = pid 1
steps 1 100 = 5 ended normal [a]

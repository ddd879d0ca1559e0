# Names of processes.

story a name gets messages until its process ends
load names.S = versions 1 0
spawn n:serve [] = pid 1
send server early = refused NoProcess
steps 1 100 = 6 waits
send server hello = done
deliver 1 = done
steps 1 100 = 3 ended normal hello
send server late = refused NoProcess

story a process sends to a name
load names.S = versions 1 0
spawn n:serve [] = pid 1
steps 1 100 = 6 waits
spawn n:tell [] = pid 2
steps 2 100 = 5 ended normal hello
spawn n:shout [server] = pid 3
steps 3 100 = 3 ended normal hello
deliver 1 = done
steps 1 100 = 3 ended normal hello
spawn n:tell [] = pid 4
steps 4 100 = 4 ended {badarg,[]} []
spawn n:shout [server] = pid 5
steps 5 100 = 3 ended {badarg,[]} []

story whereis answers the pid or undefined
load names.S = versions 1 0
spawn n:find [server] = pid 1
steps 1 100 = 2 ended normal undefined
spawn n:serve [] = pid 2
steps 2 100 = 6 waits
spawn n:find [server] = pid 3
steps 3 100 = 2 ended normal <0.2.0>
spawn n:find [2] = pid 4
steps 4 100 = 2 ended {badarg,[]} []

story register refuses what is taken dead or no name
load names.S = versions 1 0
spawn n:serve [] = pid 1
steps 1 100 = 6 waits
spawn n:name [free] = pid 2
steps 2 100 = 3 ended normal true
spawn n:name [server] = pid 3
steps 3 100 = 3 ended {badarg,[]} []
spawn n:name [undefined] = pid 4
steps 4 100 = 3 ended {badarg,[]} []
spawn n:name [1] = pid 5
steps 5 100 = 3 ended {badarg,[]} []
spawn n:twice [] = pid 6
steps 6 100 = 6 ended {badarg,[]} []
spawn n:dead [] = pid 7
steps 7 5 = 5 goes on
steps 8 100 = 2 ended normal []
steps 7 100 = 3 ended {badarg,[]} []

story unregister frees a name
load names.S = versions 1 0
spawn n:serve [] = pid 1
steps 1 100 = 6 waits
spawn n:unname [nobody] = pid 2
steps 2 100 = 2 ended {badarg,[]} []
spawn n:unname [server] = pid 3
steps 3 100 = 2 ended normal true
send server hello = refused NoProcess
spawn n:serve [] = pid 4
steps 4 100 = 6 waits
send server hello = done
deliver 4 = done
steps 4 100 = 3 ended normal hello

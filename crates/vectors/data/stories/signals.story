# Exit signals.

story kill ends a process
load exits.S = versions 1 0
spawn k:stop [kill] = pid 1
steps 1 9 = 9 goes on
steps 2 100 = 2 waits
deliver 2 = done
steps 2 1 = refused NoProcess
steps 1 100 = 2 ended normal false

story another reason ends a process and drops what comes behind
load exits.S = versions 1 0
spawn k:stop [{boom,1}] = pid 1
steps 1 9 = 9 goes on
steps 2 100 = 2 waits
send 2 a = done
deliver 2 = done
deliver 2 = refused NoProcess
steps 1 100 = 2 ended normal false

story normal from another process is ignored
load exits.S = versions 1 0
spawn k:stop [normal] = pid 1
steps 1 9 = 9 goes on
steps 2 100 = 2 waits
deliver 2 = done
steps 2 1 = refused NotReady
steps 1 100 = 2 ended normal true

story a signal acts when it is delivered
load exits.S = versions 1 0
spawn k:stop [kill] = pid 1
steps 1 100 = 11 ended normal true
steps 2 100 = 2 waits
deliver 2 = done
steps 2 1 = refused NoProcess

story normal from itself ends a process
load exits.S = versions 1 0
spawn k:own [normal] = pid 1
steps 1 100 = 5 waits
deliver 1 = done
steps 1 1 = refused NoProcess

story exit of what is no pid is a fault
spawn erlang:exit [1,a] = pid 1
steps 1 100 = 1 ended {badarg,[]} []

# Messages between processes, and processes that start others.

story a receive takes the first message that fits
load r.S = versions 1 0
spawn r:get [] = pid 1
send 1 a = done
send 1 b = done
send 1 c = done
deliver 1 = done
steps 1 100 = 18 ended normal {c,a}

story messages on their way are not there yet
load r.S = versions 1 0
spawn r:get [] = pid 1
send 1 a = done
send 1 b = done
send 1 c = done
steps 1 100 = 4 waits
steps 1 1 = refused NotReady

story a process asks another that it started
load processes.S = versions 1 0
spawn p:ask [] = pid 1
steps 1 100 = 8 waits
steps 2 100 = 4 ended normal done
deliver 1 = done
steps 1 100 = 3 ended normal done

story spawn answers the pid
load processes.S = versions 1 0
spawn p:start [[]] = pid 1
steps 1 100 = 5 ended normal <0.2.0>
steps 2 100 = 3 ended normal gone
spawn p:start [[more]] = pid 3
steps 3 100 = 5 ended normal <0.4.0>
steps 4 100 = 1 ended {undef,[]} []
spawn p:start [[improper|list]] = pid 5
steps 5 100 = 5 ended {badarg,[]} []
spawn p:leave [] = pid 6

story spawn takes at most 255 arguments
load processes.S = versions 1 0
spawn p:many [255] = pid 1
steps 1 10000 = 1025 ended normal <0.2.0>
spawn p:many [256] = pid 3
steps 3 10000 = 1029 ended {badarg,[]} []

story a process drops what it sends to one that ended
load processes.S = versions 1 0
spawn p:late [] = pid 1
steps 1 5 = 5 goes on
steps 2 100 = 3 ended normal gone
steps 1 100 = 3 ended normal late
deliver 2 = refused NoProcess

story a message to oneself is on its way first
load processes.S = versions 1 0
spawn p:own [] = pid 1
steps 1 100 = 9 ended normal nothing
spawn p:own [] = pid 2
steps 2 4 = 4 goes on
deliver 2 = done
steps 2 100 = 3 ended normal hello

story only pids and names are sent to and only messages are taken
load processes.S = versions 1 0
spawn p:stray [] = pid 1
steps 1 100 = 3 ended {badarg,[]} []
spawn p:early [] = pid 2
steps 2 100 = 2 ended {illegal_operand,[]} []

story what has not started or has ended is no process
load processes.S = versions 1 0
steps 1 1 = refused NoProcess
send 1 a = refused NoProcess
send nobody a = refused NoProcess
spawn p:leave [] = pid 1
steps 0 1 = refused NoProcess
steps 1 0 = 0 goes on
deliver 1 = refused NotReady
timeout 1 = refused NotReady
steps 1 100 = 3 ended normal gone
steps 1 1 = refused NoProcess
send 1 a = refused NoProcess
deliver 1 = refused NoProcess
timeout 1 = refused NoProcess

story a process is ready that runs or has something on its way
load r.S = versions 1 0
ready 0 = none
spawn r:get [] = pid 1
spawn r:get [] = pid 2
ready 0 = 1
ready 1 = 2
ready 2 = none
steps 1 100 = 4 waits
ready 0 = 2
send 1 a = done
ready 0 = 1
deliver 1 = done
steps 1 100 = 5 waits
ready 0 = 2
spawn erlang:exit [a] = pid 3
steps 3 1 = 1 ended a []
ready 2 = none

story what a receive passes over stays in its order
load skips.S = versions 1 0
spawn skips:get [] = pid 1
send 1 a = done
send 1 b = done
send 1 c = done
deliver 1 = done
steps 1 100 = 22 ended normal {c,a,b}

# Time: receives that wait for so long.

story a deadline comes with the clock
load w.S = versions 1 0
spawn w:f [] = pid 1
steps 1 100 = 3 waits
clock 99 = done
timeout 1 = refused NotReady
clock 100 = done
timeout 1 = done
clock 99 = refused BackwardClock
steps 1 100 = 3 ended normal late

story a message comes before the deadline
load w.S = versions 1 0
spawn w:f [] = pid 1
steps 1 100 = 3 waits
clock 100 = done
send 1 hello = done
deliver 1 = done
timeout 1 = refused NotReady
steps 1 100 = 3 ended normal hello
next_deadline = none

story a sleep is 0 to 4294967295 or infinity
load timers.S = versions 1 0
spawn s:sleep [0] = pid 1
steps 1 100 = 5 ended normal late
spawn s:sleep [infinity] = pid 2
steps 2 100 = 2 waits
next_deadline = none
spawn s:sleep [4294967295] = pid 3
steps 3 100 = 2 waits
next_deadline = 4294967295 3
spawn s:sleep [4294967296] = pid 4
steps 4 100 = 2 ended {timeout_value,[]} []
spawn s:sleep [soon] = pid 5
steps 5 100 = 2 ended {timeout_value,[]} []
spawn s:sleep [-1] = pid 6
steps 6 100 = 2 ended {timeout_value,[]} []

story a message that is not taken leaves the deadline
load timers.S = versions 1 0
spawn s:wanted [] = pid 1
steps 1 100 = 3 waits
next_deadline = 100 1
clock 60 = done
send 1 a = done
deliver 1 = done
next_deadline = none
steps 1 100 = 5 waits
next_deadline = 100 1
clock 100 = done
timeout 1 = done
steps 1 100 = 4 ended normal a

story a message that is taken ends the deadline
load timers.S = versions 1 0
spawn s:each [] = pid 1
steps 1 100 = 3 waits
next_deadline = 100 1
clock 60 = done
send 1 a = done
deliver 1 = done
steps 1 100 = 5 waits
next_deadline = 160 1

story a wait without end has no deadline
load timers.S = versions 1 0
spawn s:after [] = pid 1
steps 1 100 = 2 waits
next_deadline = 100 1
send 1 a = done
deliver 1 = done
steps 1 100 = 4 waits
next_deadline = none
clock 100 = done
timeout 1 = refused NotReady

story a process that waits lingers and goes on in its code
load w.S = versions 1 0
spawn w:f [] = pid 1
steps 1 100 = 3 waits
load w.S = versions 2 1
soft_purge w = false
clock 100 = done
timeout 1 = done
soft_purge w = false
steps 1 100 = 3 ended normal late
soft_purge w = true

story the clock ends at its greatest time
load timers.S = versions 1 0
clock 18446744073709551615 = done
spawn s:sleep [1] = pid 1
steps 1 100 = 2 waits
next_deadline = 18446744073709551615 1
timeout 1 = done
steps 1 100 = 3 ended normal late

story the next deadline is the least and of the first process
load timers.S = versions 1 0
spawn s:sleep [300] = pid 1
spawn s:sleep [100] = pid 2
spawn s:sleep [100] = pid 3
steps 3 100 = 2 waits
steps 1 100 = 2 waits
next_deadline = 100 3
steps 2 100 = 2 waits
next_deadline = 100 2

# Sleeps: waits whose label leads to themselves, which look at no message.

story a sleep waits with a message in the mailbox, and through one that comes
load sleep.S = versions 1 0
spawn z:sleep [100] = pid 1
send 1 a = done
deliver 1 = done
steps 1 100 = 2 waits
ready 0 = none
next_deadline = 100 1
clock 60 = done
send 1 b = done
ready 0 = 1
deliver 1 = done
ready 0 = 1
steps 1 100 = 1 waits
ready 0 = none
next_deadline = 100 1
clock 100 = done
timeout 1 = done
steps 1 100 = 4 ended normal a

story a sleep of 0 goes on with a message in the mailbox, and without one
load sleep.S = versions 1 0
spawn z:sleep [0] = pid 1
send 1 a = done
deliver 1 = done
steps 1 100 = 6 ended normal a
spawn z:sleep [0] = pid 2
steps 2 100 = 6 ended normal none

story a sleep without end waits on at each message
load sleep.S = versions 1 0
spawn z:forever [] = pid 1
send 1 a = done
deliver 1 = done
steps 1 100 = 2 waits
next_deadline = none
send 1 b = done
deliver 1 = done
steps 1 100 = 1 waits
spawn z:sleep [infinity] = pid 2
send 2 a = done
deliver 2 = done
steps 2 100 = 2 waits
next_deadline = none
ready 0 = none

story a deadline that an earlier wait set stays through a sleep
load sleep.S = versions 1 0
spawn z:earlier [] = pid 1
steps 1 100 = 2 waits
next_deadline = 100 1
clock 60 = done
send 1 a = done
deliver 1 = done
steps 1 100 = 1 waits
next_deadline = 100 1
clock 100 = done
timeout 1 = done
steps 1 100 = 3 ended normal second

story a wait of which the deadline has passed goes on behind it, and not behind the sleep that it leads to
load sleep.S = versions 1 0
spawn z:earlier [] = pid 1
steps 1 100 = 2 waits
clock 100 = done
timeout 1 = done
steps 1 100 = 3 ended normal first

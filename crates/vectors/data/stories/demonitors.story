# Monitors that are dropped, and messages that are flushed.

story of a monitor that was dropped no DOWN comes
load served.S = versions 1 0
load watch.S = versions 2 0
spawn served:serve [a] = pid 1
steps 1 100 = 7 waits
spawn watch:drop [a,none] = pid 2
steps 2 100 = 11 waits
send 2 drop = done
deliver 2 = done
steps 2 100 = 13 waits
send a over = done
deliver 1 = done
steps 1 100 = 5 ended over []
ready 0 = none
send 2 stop = done
deliver 2 = done
steps 2 100 = 6 ended normal [true]

story a DOWN whose monitor is dropped while it is on its way brings nothing
load served.S = versions 1 0
load watch.S = versions 2 0
spawn served:serve [a] = pid 1
steps 1 100 = 7 waits
spawn watch:drop [a,none] = pid 2
steps 2 100 = 11 waits
send 2 drop = done
deliver 2 = done
send a over = done
deliver 1 = done
steps 1 100 = 5 ended over []
ready 0 = 2
steps 2 100 = 13 waits
ready 0 = 2
deliver 2 = done
steps 2 1 = refused NotReady
ready 0 = none
send 2 stop = done
deliver 2 = done
steps 2 100 = 6 ended normal [true]

story a DOWN that has come stays without flush
load served.S = versions 1 0
load watch.S = versions 2 0
spawn served:serve [a] = pid 1
steps 1 100 = 7 waits
spawn watch:drop [a,none] = pid 2
spawn watch:drop [a,[]] = pid 3
steps 2 100 = 11 waits
steps 3 100 = 11 waits
send a over = done
deliver 1 = done
steps 1 100 = 5 ended over []
send 2 drop = done
send 3 drop = done
send 2 stop = done
send 3 stop = done
deliver 2 = done
deliver 3 = done
steps 2 100 = 25 ended normal [{'DOWN',#Ref<0.0.0.1>,process,<0.1.0>,over},true]
steps 3 100 = 25 ended normal [{'DOWN',#Ref<0.0.0.2>,process,<0.1.0>,over},true]

story flush takes a DOWN out that has come, and no other message
load served.S = versions 1 0
load watch.S = versions 2 0
spawn served:serve [a] = pid 1
steps 1 100 = 7 waits
spawn watch:drop [a,[flush]] = pid 2
steps 2 100 = 11 waits
send 2 {'DOWN',ref,process,pid,reason} = done
send a over = done
deliver 1 = done
steps 1 100 = 5 ended over []
send 2 drop = done
send 2 stop = done
deliver 2 = done
steps 2 100 = 28 ended normal [{'DOWN',ref,process,pid,reason},true]

story flush where no DOWN has come drops the monitor
load served.S = versions 1 0
load watch.S = versions 2 0
spawn served:serve [a] = pid 1
steps 1 100 = 7 waits
spawn watch:drop [a,[flush]] = pid 2
steps 2 100 = 11 waits
send 2 drop = done
deliver 2 = done
steps 2 100 = 13 waits
send a over = done
deliver 1 = done
steps 1 100 = 5 ended over []
send 2 stop = done
deliver 2 = done
steps 2 100 = 6 ended normal [true]

story one of two monitors of a process is dropped, and the other one is told
load served.S = versions 1 0
load watch.S = versions 2 0
spawn served:serve [a] = pid 1
steps 1 100 = 7 waits
spawn watch:drop [a,none] = pid 2
spawn watch:watch [[a]] = pid 3
steps 2 100 = 11 waits
steps 3 100 = 20 waits
send 2 drop = done
deliver 2 = done
steps 2 100 = 13 waits
send a over = done
deliver 1 = done
steps 1 100 = 5 ended over []
ready 0 = 3
send 3 stop = done
deliver 3 = done
steps 3 100 = 11 ended normal [{'DOWN',#Ref<0.0.0.2>,process,<0.1.0>,over},#Ref<0.0.0.2>]

story flush takes out the first message of five elements whose second is the reference
load flush.S = versions 1 0
spawn flush:first [] = pid 1
steps 1 100 = 18 waits
send 1 last = done
deliver 1 = done
steps 1 100 = 38 ended normal [last,{d,#Ref<0.0.0.1>,e,f,2},{#Ref<0.0.0.1>,b,process,c,5},{a,#Ref<0.0.0.1>,3},true]

story flush puts the save pointer at the start, and demonitor without it leaves it where it is
load flush.S = versions 1 0
spawn flush:pointer [none] = pid 1
spawn flush:pointer [[]] = pid 2
spawn flush:pointer [[flush]] = pid 3
send 1 a = done
send 1 b = done
send 2 a = done
send 2 b = done
send 3 a = done
send 3 b = done
deliver 1 = done
deliver 2 = done
deliver 3 = done
steps 1 100 = 15 ended normal b
steps 2 100 = 17 ended normal b
steps 3 100 = 17 ended normal a

story the options are none, or flush alone
load flush.S = versions 1 0
spawn flush:options [[]] = pid 1
steps 1 100 = 6 ended normal true
spawn flush:options [[flush]] = pid 2
steps 2 100 = 6 ended normal true
spawn flush:options [[info]] = pid 3
steps 3 100 = 6 ended {badarg,[]} []
spawn flush:options [flush] = pid 4
steps 4 100 = 6 ended {badarg,[]} []
spawn flush:options [[flush,flush]] = pid 5
steps 5 100 = 6 ended {badarg,[]} []
spawn flush:options [[flush|x]] = pid 6
steps 6 100 = 6 ended {badarg,[]} []
spawn flush:options [[[flush]]] = pid 7
steps 7 100 = 6 ended {badarg,[]} []
spawn flush:options [{flush}] = pid 8
steps 8 100 = 6 ended {badarg,[]} []

story what is no reference is refused, and nothing is flushed
load flush.S = versions 1 0
spawn flush:caught [a,[flush]] = pid 1
steps 1 100 = 7 ended normal {'EXIT',{badarg,[]}}
spawn flush:caught [[],[]] = pid 2
steps 2 100 = 7 ended normal {'EXIT',{badarg,[]}}
spawn erlang:demonitor [1] = pid 3
steps 3 100 = 1 ended {badarg,[]} []
spawn erlang:demonitor [{a,1},[]] = pid 4
steps 4 100 = 1 ended {badarg,[]} []
spawn erlang:demonitor [] = pid 5
steps 5 100 = 1 ended {undef,[]} []
spawn erlang:demonitor [a,[],[]] = pid 6
steps 6 100 = 1 ended {undef,[]} []

story a monitor is dropped once, and demonitor is true also where there is none
load served.S = versions 1 0
load flush.S = versions 2 0
spawn served:serve [a] = pid 1
steps 1 100 = 7 waits
spawn flush:twice [a] = pid 2
steps 2 100 = 14 ended normal {true,true,#Ref<0.0.0.1>}
spawn flush:applied [] = pid 3
steps 3 100 = 9 ended normal #Ref<0.0.0.3>

story a process can't drop the monitor of another
load served.S = versions 1 0
load flush.S = versions 2 0
spawn served:serve [a] = pid 1
steps 1 100 = 7 waits
spawn flush:take [b] = pid 2
steps 2 100 = 5 waits
spawn flush:lend [a,b] = pid 3
steps 3 100 = 12 waits
deliver 2 = done
steps 2 100 = 3 ended normal true
send a over = done
deliver 1 = done
steps 1 100 = 5 ended over []
deliver 3 = done
steps 3 100 = 4 ended normal {'DOWN',#Ref<0.0.0.1>,process,<0.1.0>,over}

# Changes of code that end processes which others monitor.

story a purge tells of those that it ends in the order of their pids, and of each in the order of the references
load served.S = versions 1 0
load watch.S = versions 2 0
spawn served:serve [a] = pid 1
spawn served:serve [b] = pid 2
spawn served:serve [c] = pid 3
steps 1 100 = 7 waits
steps 2 100 = 7 waits
steps 3 100 = 7 waits
spawn watch:watch [[c,a,b,a]] = pid 4
steps 4 100 = 47 waits
load served.S = versions 3 1
soft_purge served = false
ready 0 = none
purge served = true
ready 0 = 4
send a late = refused NoProcess
purge served = false
send 4 stop = done
deliver 4 = done
steps 4 100 = 26 ended normal [{'DOWN',#Ref<0.0.0.1>,process,<0.3.0>,killed},{'DOWN',#Ref<0.0.0.3>,process,<0.2.0>,killed},{'DOWN',#Ref<0.0.0.4>,process,<0.1.0>,killed},{'DOWN',#Ref<0.0.0.2>,process,<0.1.0>,killed},#Ref<0.0.0.4>,#Ref<0.0.0.3>,#Ref<0.0.0.2>,#Ref<0.0.0.1>]

story a purge tells nobody of those that it leaves
load served.S = versions 1 0
load watch.S = versions 2 0
spawn served:serve [a] = pid 1
steps 1 100 = 7 waits
load served.S = versions 3 1
spawn served:serve [b] = pid 2
steps 2 100 = 7 waits
spawn watch:watch [[a,b]] = pid 3
steps 3 100 = 29 waits
purge served = true
deliver 3 = done
steps 3 100 = 7 waits
ready 0 = none
send b over = done
deliver 2 = done
steps 2 100 = 5 ended over []
send 3 stop = done
deliver 3 = done
steps 3 100 = 11 ended normal [{'DOWN',#Ref<0.0.0.2>,process,<0.2.0>,over},{'DOWN',#Ref<0.0.0.1>,process,<0.1.0>,killed},#Ref<0.0.0.2>,#Ref<0.0.0.1>]

story a third load tells of those that it ends
load served.S = versions 1 0
load watch.S = versions 2 0
spawn served:serve [a] = pid 1
steps 1 100 = 7 waits
spawn watch:watch [[a]] = pid 2
steps 2 100 = 20 waits
load served.S = versions 3 1
load_strict served.S = refused NotPurged
load erlang.S = refused Sticky
ready 0 = none
load served.S = versions 4 3
send 2 stop = done
deliver 2 = done
steps 2 100 = 11 ended normal [{'DOWN',#Ref<0.0.0.1>,process,<0.1.0>,killed},#Ref<0.0.0.1>]

story who ends in the same purge is told nothing, and others are told of it
load watch.S = versions 1 0
spawn watch:named [a,[]] = pid 1
steps 1 100 = 17 waits
spawn watch:named [b,[a]] = pid 2
steps 2 100 = 26 waits
load watch.S = versions 2 1
spawn watch:watch [[b,a]] = pid 3
steps 3 100 = 29 waits
purge watch = true
deliver 2 = refused NoProcess
send 3 stop = done
deliver 3 = done
steps 3 100 = 16 ended normal [{'DOWN',#Ref<0.0.0.2>,process,<0.2.0>,killed},{'DOWN',#Ref<0.0.0.3>,process,<0.1.0>,killed},#Ref<0.0.0.3>,#Ref<0.0.0.2>]

story a purge that ends a watcher drops its monitors
load served.S = versions 1 0
load watch.S = versions 2 0
spawn served:serve [a] = pid 1
steps 1 100 = 7 waits
spawn watch:watch [[a]] = pid 2
steps 2 100 = 20 waits
load watch.S = versions 3 2
purge watch = true
send a over = done
deliver 1 = done
steps 1 100 = 5 ended over []
ready 0 = none

story a monitor of a process that a purge ended is told as noproc
load served.S = versions 1 0
load pids.beam = versions 2 0
spawn erlang:self [] = pid 1
spawn served:serve [a] = pid 2
steps 2 100 = 7 waits
load served.S = versions 3 1
purge served = true
spawn pids:later [] = pid 3
steps 3 100 = 9 waits
send 3 stop = done
deliver 3 = done
steps 3 100 = 11 ended normal [{'DOWN',#Ref<0.0.0.1>,process,<0.2.0>,noproc},#Ref<0.0.0.1>]

story a hard list tells of those that it ends by their pids, whatever modules they linger in
load served.S = versions 1 0
load names.S = versions 2 0
load watch.S = versions 3 0
spawn served:serve [a] = pid 1
spawn n:serve [] = pid 2
spawn served:serve [b] = pid 3
steps 1 100 = 7 waits
steps 2 100 = 6 waits
steps 3 100 = 7 waits
spawn watch:watch [[b,server,a]] = pid 4
steps 4 100 = 38 waits
atomic_load strict names.S served.S = upgraded 4 2 5 1
ready 0 = none
atomic_load strict names.S served.S = refused NotPurged
atomic_load soft names.S served.S = refused NotPurged
ready 0 = none
atomic_load hard names.S served.S = upgraded 6 4 7 5
ready 0 = 4
send 4 stop = done
deliver 4 = done
steps 4 100 = 21 ended normal [{'DOWN',#Ref<0.0.0.1>,process,<0.3.0>,killed},{'DOWN',#Ref<0.0.0.2>,process,<0.2.0>,killed},{'DOWN',#Ref<0.0.0.3>,process,<0.1.0>,killed},#Ref<0.0.0.3>,#Ref<0.0.0.2>,#Ref<0.0.0.1>]

story a hard list ends a watcher with those that it watches, and another one is told of all
load served.S = versions 1 0
load watch.S = versions 2 0
spawn served:serve [a] = pid 1
steps 1 100 = 7 waits
spawn watch:named [w,[a]] = pid 2
steps 2 100 = 26 waits
atomic_load strict watch.S served.S = upgraded 3 2 4 1
spawn watch:watch [[w,a]] = pid 3
steps 3 100 = 29 waits
atomic_load hard watch.S served.S = upgraded 5 3 6 4
deliver 2 = refused NoProcess
send 3 stop = done
deliver 3 = done
steps 3 100 = 16 ended normal [{'DOWN',#Ref<0.0.0.2>,process,<0.2.0>,killed},{'DOWN',#Ref<0.0.0.3>,process,<0.1.0>,killed},#Ref<0.0.0.3>,#Ref<0.0.0.2>]

story new code keeps the monitors of a process
load served.S = versions 1 0
load watch.S = versions 2 0
spawn served:serve [a] = pid 1
steps 1 100 = 7 waits
spawn watch:watch [[a]] = pid 2
steps 2 100 = 20 waits
load watch.S = versions 3 2
send a over = done
deliver 1 = done
steps 1 100 = 5 ended over []
send 2 stop = done
deliver 2 = done
steps 2 100 = 11 ended normal [{'DOWN',#Ref<0.0.0.1>,process,<0.1.0>,over},#Ref<0.0.0.1>]

# References, which stand in the literals of ref.beam: #Ref<0.0.0.1>, #Ref<0.1.0.0> and #Ref<0.5.5>, of nonode@nohost and creation 0.

story a reference is told by the test and by the native, and lies between atoms and pids; of others by its words, from the last
load ref.beam = versions 1 0
spawn ref:test [] = pid 1
steps 1 100 = 4 ended normal #Ref<0.0.0.1>
spawn ref:bif [] = pid 2
steps 2 100 = 3 ended normal true
spawn ref:order [] = pid 3
steps 3 100 = 8 ended normal yes

story each reference is another one, also one that is made in the place of a return
load refs.S = versions 1 0
spawn refs:two [] = pid 1
spawn refs:last [] = pid 2
spawn erlang:make_ref [] = pid 3
spawn refs:last [] = pid 4
steps 2 100 = 2 ended normal #Ref<0.0.0.1>
steps 1 4 = 4 goes on
steps 3 100 = 1 ended normal #Ref<0.0.0.3>
steps 1 100 = 11 ended normal {#Ref<0.0.0.2>,#Ref<0.0.0.4>,true,false,true,<0.1.0>,zzz}
steps 4 100 = 2 ended normal #Ref<0.0.0.5>
spawn erlang:make_ref [a] = pid 5
steps 5 100 = 1 ended {undef,[]} []

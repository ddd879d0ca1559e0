# Integers, pairs and tuples.

story integers are computed within their limits
load integers.S = versions 1 0
spawn i:plus [576460752303423487,1] = pid 1
steps 1 100 = 2 ended {system_limit,[]} []
spawn i:divided [-576460752303423488,-1] = pid 2
steps 2 100 = 2 ended {system_limit,[]} []
spawn i:divided [7,0] = pid 3
steps 3 100 = 2 ended {badarith,[]} []
spawn i:rest [-7,2] = pid 4
steps 4 100 = 3 ended normal -1
spawn i:negated [7] = pid 5
steps 5 100 = 3 ended normal -7

story a native that fails goes to its label
load integers.S = versions 1 0
spawn i:safe [-7,2] = pid 1
steps 1 100 = 3 ended normal -3
spawn i:safe [7,0] = pid 2
steps 2 100 = 4 ended normal none
spawn i:safe [a,1] = pid 3
steps 3 100 = 4 ended normal none

story elements of tuples are read and set
load tuples.S = versions 1 0
spawn d:at [2,{a,b,c}] = pid 1
steps 1 100 = 3 ended normal b
spawn d:at [4,{a,b,c}] = pid 2
steps 2 100 = 2 ended {badarg,[]} []
spawn d:at [0,{a,b,c}] = pid 3
steps 3 100 = 2 ended {badarg,[]} []
spawn d:set [2,{a,b,c},z] = pid 4
steps 4 100 = 2 ended normal {a,z,c}
spawn d:set [4,{a,b,c},z] = pid 5
steps 5 100 = 2 ended {badarg,[]} []
spawn d:first [{a,b,c}] = pid 6
steps 6 100 = 3 ended normal a
spawn d:first [{}] = pid 7
steps 7 100 = 2 ended {illegal_operand,[]} []

story tuples are made of what was read first
load tuples.S = versions 1 0
spawn d:made [a,{b}] = pid 1
steps 1 100 = 3 ended normal {{b},k,7,[],[1|2],a}

story a record is updated by the last value of a position
load tuples.S = versions 1 0
spawn d:updated [{r,1,2},new] = pid 1
steps 1 100 = 3 ended normal {r,new,{r,1,2}}
spawn d:updated [{r,1},new] = pid 2
steps 2 100 = 2 ended {illegal_operand,[]} []
spawn d:updated [r,new] = pid 3
steps 3 100 = 2 ended {illegal_operand,[]} []

story a tuple is selected by its size
load tuples.S = versions 1 0
spawn d:sized [{a}] = pid 1
steps 1 100 = 4 ended normal one
spawn d:sized [{a,b}] = pid 2
steps 2 100 = 3 ended {function_clause,[]} []
spawn d:sized [{a,b,c}] = pid 3
steps 3 100 = 4 ended normal other
spawn d:sized [a] = pid 4
steps 4 100 = 4 ended normal other

story pairs are made and taken apart
load pairs.S = versions 1 0
spawn q:split [[a,b]] = pid 1
steps 1 100 = 4 ended normal {a,[b]}
spawn q:split [[]] = pid 2
steps 2 100 = 2 ended {illegal_operand,[]} []
spawn q:head [[a,b]] = pid 3
steps 3 100 = 3 ended normal a
spawn q:tail [[a|b]] = pid 4
steps 4 100 = 3 ended normal b
spawn q:joined [a,b] = pid 5
steps 5 100 = 3 ended normal [a|b]
spawn q:swapped [a,b] = pid 6
steps 6 100 = 4 ended normal {b,a}

story a value is selected by the first equal one
load pairs.S = versions 1 0
spawn q:picked [a] = pid 1
steps 1 100 = 4 ended normal atom
spawn q:picked [1] = pid 2
steps 2 100 = 4 ended normal integer
spawn q:picked [b] = pid 3
steps 3 100 = 4 ended normal other

story a list that something else has stays as it is
load owners.S = versions 1 0
spawn o:kept [[a,b,c]] = pid 1
steps 1 100 = 7 ended normal {[a,b,c],[z,a,b,c],a}
spawn o:alone [] = pid 2
steps 2 100 = 9 ended normal {2,[1]}
spawn o:same [[[p],q]] = pid 3
steps 3 100 = 4 ended normal [[q],q]

story of many integers, some in a row, the one that is chosen is found
load owners.S = versions 1 0
spawn o:chosen [-3] = pid 1
steps 1 100 = 4 ended normal a
spawn o:chosen [-2] = pid 2
steps 2 100 = 4 ended normal b
spawn o:chosen [0] = pid 3
steps 3 100 = 4 ended normal a
spawn o:chosen [1] = pid 4
steps 4 100 = 4 ended normal b
spawn o:chosen [5] = pid 5
steps 5 100 = 4 ended normal b
spawn o:chosen [7] = pid 6
steps 6 100 = 4 ended normal a
spawn o:chosen [11] = pid 7
steps 7 100 = 4 ended normal a
spawn o:chosen [400] = pid 8
steps 8 100 = 4 ended normal b
spawn o:chosen [3] = pid 9
steps 9 100 = 4 ended normal other
spawn o:chosen [10] = pid 10
steps 10 100 = 4 ended normal other
spawn o:chosen [401] = pid 11
steps 11 100 = 4 ended normal other
spawn o:chosen [-576460752303423488] = pid 12
steps 12 100 = 4 ended normal other
spawn o:chosen [576460752303423487] = pid 13
steps 13 100 = 4 ended normal other

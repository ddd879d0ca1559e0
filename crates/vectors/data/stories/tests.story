# Tests of terms. A function goes through them all, and its value is the list of those that hold.

story types are tested
load tests.S = versions 1 0
spawn z:type [1] = pid 1
steps 1 100 = 20 ended normal [integer,number]
spawn z:type [a] = pid 2
steps 2 100 = 19 ended normal [atom]
spawn z:type [true] = pid 3
steps 3 100 = 20 ended normal [atom,boolean]
spawn z:type [[]] = pid 4
steps 4 100 = 20 ended normal [nil,list]
spawn z:type [[1|2]] = pid 5
steps 5 100 = 20 ended normal [list,pair]
spawn z:type [{}] = pid 6
steps 6 100 = 19 ended normal [tuple]

story terms are compared
load tests.S = versions 1 0
spawn z:compare [1,2] = pid 1
steps 1 100 = 12 ended normal ['<','/=','=/=']
spawn z:compare [2,1] = pid 2
steps 2 100 = 12 ended normal ['>=','/=','=/=']
spawn z:compare [[a],[a]] = pid 3
steps 3 100 = 12 ended normal ['>=','==','=:=']
spawn z:compare [{z,z},[]] = pid 4
steps 4 100 = 12 ended normal ['<','/=','=/=']
spawn z:compare [{a,a,a},{z,z}] = pid 5
steps 5 100 = 12 ended normal ['>=','/=','=/=']

story sizes and tags of tuples are tested
load tests.S = versions 1 0
spawn z:shape [{ok,1}] = pid 1
steps 1 100 = 4 ended normal tagged
spawn z:shape [{no,1}] = pid 2
steps 2 100 = 5 ended normal two
spawn z:shape [{ok,1,2}] = pid 3
steps 3 100 = 5 ended normal other
spawn z:shape [ok] = pid 4
steps 4 100 = 5 ended normal other

# Exceptions: raised, caught and raised again.

story an error under catch is its value
load e.S = versions 1 0
spawn e:c [] = pid 1
steps 1 100 = 8 ended normal {'EXIT',{b,[]}}

story an exit raised again ends with its value
load e.S = versions 1 0
spawn e:t [] = pid 1
steps 1 100 = 7 ended c []

story what nothing catches ends the process
spawn erlang:throw [a] = pid 1
steps 1 100 = 1 ended {{nocatch,a},[]} []
spawn erlang:error [b] = pid 2
steps 2 100 = 1 ended {b,[]} []
spawn erlang:exit [c] = pid 3
steps 3 100 = 1 ended c []

story catch tells the class by the form of its value
load caught.S = versions 1 0
spawn x:caught [throw,v] = pid 1
steps 1 100 = 8 ended normal v
spawn x:caught [exit,v] = pid 2
steps 2 100 = 8 ended normal {'EXIT',v}
spawn x:caught [error,v] = pid 3
steps 3 100 = 8 ended normal {'EXIT',{v,[]}}

story try has class value and raw trace
load caught.S = versions 1 0
spawn x:tried [throw,v] = pid 1
steps 1 100 = 9 ended normal {throw,v,[throw]}
spawn x:tried [exit,v] = pid 2
steps 2 100 = 9 ended normal {exit,v,[exit]}
spawn x:tried [error,v] = pid 3
steps 3 100 = 9 ended normal {error,v,[error]}
spawn x:tried [other,v] = pid 4
steps 4 100 = 8 ended normal badarg

story an exception raised again keeps its class
load caught.S = versions 1 0
spawn x:again [error,v] = pid 1
steps 1 100 = 7 ended {v,[]} []
spawn x:again [throw,v] = pid 2
steps 2 100 = 7 ended {{nocatch,v},[]} []
spawn x:raw [exit,v] = pid 3
steps 3 100 = 7 ended v []

story clauses fault with what they met
load clauses.S = versions 1 0
spawn f:match [v] = pid 1
steps 1 100 = 2 ended {{badmatch,v},[]} []
spawn f:case [v] = pid 2
steps 2 100 = 2 ended {{case_clause,v},[]} []
spawn f:try [v] = pid 3
steps 3 100 = 2 ended {{try_clause,v},[]} []
spawn f:record [v] = pid 4
steps 4 100 = 2 ended {{badrecord,v},[]} []
spawn f:if [] = pid 5
steps 5 100 = 2 ended {if_clause,[]} []
spawn f:function [1] = pid 6
steps 6 100 = 3 ended {function_clause,[]} []
spawn f:behind [] = pid 7
steps 7 100 = 3 ended {illegal_operand,[]} []

story an exception drops the frames above its tag
load tags.S = versions 1 0
spawn g:older [] = pid 1
steps 1 100 = 12 ended normal {{'EXIT',{b,[]}},kept}

story the first tag of a frame catches
load tags.S = versions 1 0
spawn g:two [] = pid 1
steps 1 100 = 10 ended normal {first,{'EXIT',{b,[]}}}

story catch without an exception leaves the value
load tags.S = versions 1 0
spawn g:unused [] = pid 1
steps 1 100 = 7 ended normal v

story no exception is no case
load tags.S = versions 1 0
spawn g:none [] = pid 1
steps 1 100 = 3 ended {illegal_operand,[]} []

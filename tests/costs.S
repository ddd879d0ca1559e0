% What tests/costs runs, beside bench/crew.S and bench/watchers.S: each exported function does one kind of work N times.
{module,costs}.
{exports,[{none,1},{sum,1},{operators,1},{large,1},{tests,1},{orders,1},{fib,1},{deep,1},{lists,1},{walks,1},{tuples,1},{conversions,1},{numbers,1},{choices,1},{remote,1},{tails,1},{catches,1},{errors,1},{natives,1},{mailbox,1},{selective,1},{sleeps,1},{names,1},{signals,1},{waits,0},{keeps,1}]}.
{attributes,[]}.
{labels,137}.

% The empty program.
{function,none,1,2}.
{label,1}.
{func_info,{atom,costs},{atom,none},1}.
{label,2}.
return.

% Adds the numbers from N down to 1.
{function,sum,1,4}.
{label,3}.
{func_info,{atom,costs},{atom,sum},1}.
{label,4}.
{move,{integer,0},{x,1}}.
{label,5}.
{test,is_lt,{f,6},[{integer,0},{x,0}]}.
{gc_bif,'+',{f,0},2,[{x,1},{x,0}],{x,1}}.
{gc_bif,'-',{f,0},2,[{x,0},{integer,1}],{x,0}}.
{jump,{f,5}}.
{label,6}.
{move,{x,1},{x,0}}.
return.

% Each operator of two integers.
{function,operators,1,8}.
{label,7}.
{func_info,{atom,costs},{atom,operators},1}.
{label,8}.
{move,{integer,3},{x,1}}.
{label,9}.
{test,is_lt,{f,10},[{integer,0},{x,0}]}.
{gc_bif,'*',{f,0},2,[{x,0},{x,1}],{x,2}}.
{gc_bif,'div',{f,0},3,[{x,2},{integer,7}],{x,3}}.
{gc_bif,'rem',{f,0},4,[{x,2},{integer,7}],{x,4}}.
{gc_bif,'band',{f,0},5,[{x,3},{integer,15}],{x,3}}.
{gc_bif,'bor',{f,0},5,[{x,3},{x,4}],{x,3}}.
{gc_bif,'bxor',{f,0},5,[{x,3},{x,2}],{x,3}}.
{gc_bif,'bsl',{f,0},5,[{x,3},{integer,2}],{x,3}}.
{gc_bif,'bsr',{f,0},5,[{x,3},{integer,1}],{x,3}}.
{gc_bif,'-',{f,0},2,[{x,0},{integer,1}],{x,0}}.
{jump,{f,9}}.
{label,10}.
return.

% Integers of more than two bytes, negative ones, and functions of one integer.
{function,large,1,12}.
{label,11}.
{func_info,{atom,costs},{atom,large},1}.
{label,12}.
{move,{integer,1000000},{x,1}}.
{label,13}.
{test,is_lt,{f,14},[{integer,0},{x,0}]}.
{gc_bif,'+',{f,0},2,[{x,1},{integer,123456789}],{x,1}}.
{gc_bif,'-',{f,0},2,[{x,1},{integer,123456789}],{x,1}}.
{test,is_lt,{f,14},[{x,1},{integer,10000000}]}.
{move,{integer,-70000},{x,2}}.
{gc_bif,abs,{f,0},3,[{x,2}],{x,2}}.
{gc_bif,'bnot',{f,0},3,[{x,2}],{x,2}}.
{gc_bif,'-',{f,0},2,[{x,0},{integer,1}],{x,0}}.
{jump,{f,13}}.
{label,14}.
return.

% Tests of types and of short values.
{function,tests,1,16}.
{label,15}.
{func_info,{atom,costs},{atom,tests},1}.
{label,16}.
{move,{atom,a},{x,1}}.
{move,nil,{x,2}}.
{label,17}.
{test,is_lt,{f,19},[{integer,0},{x,0}]}.
{test,is_integer,{f,19},[{x,0}]}.
{test,is_atom,{f,19},[{x,1}]}.
{test,is_nil,{f,19},[{x,2}]}.
{test,is_list,{f,19},[{x,2}]}.
{test,is_ge,{f,19},[{x,0},{integer,1}]}.
{test,is_ne_exact,{f,19},[{x,1},{atom,b}]}.
{test,is_eq_exact,{f,19},[{x,1},{atom,a}]}.
{test,is_eq,{f,19},[{x,0},{x,0}]}.
{test,is_tuple,{f,18},[{x,1}]}.
{label,18}.
{gc_bif,'-',{f,0},3,[{x,0},{integer,1}],{x,0}}.
{jump,{f,17}}.
{label,19}.
return.

% Terms that are equal, and less than others, only at their ends.
{function,orders,1,21}.
{label,20}.
{func_info,{atom,costs},{atom,orders},1}.
{label,21}.
{label,22}.
{test,is_lt,{f,23},[{integer,0},{x,0}]}.
{move,{literal,{a,[1,2,{b,c}],"text",d}},{x,1}}.
{move,{literal,{a,[1,2,{b,c}],"text",d}},{x,2}}.
{move,{literal,{a,[1,2,{b,c}],"text",e}},{x,3}}.
{test,is_eq_exact,{f,23},[{x,1},{x,2}]}.
{test,is_lt,{f,23},[{x,1},{x,3}]}.
{bif,'=<',{f,0},[{x,1},{x,3}],{x,2}}.
{gc_bif,'-',{f,0},1,[{x,0},{integer,1}],{x,0}}.
{jump,{f,22}}.
{label,23}.
return.

% The N-th number of Fibonacci, by calls of itself.
{function,fib,1,25}.
{label,24}.
{func_info,{atom,costs},{atom,fib},1}.
{label,25}.
{test,is_lt,{f,26},[{x,0},{integer,2}]}.
return.
{label,26}.
{allocate,2,1}.
{move,{x,0},{y,1}}.
{gc_bif,'-',{f,0},1,[{x,0},{integer,1}],{x,0}}.
{call,1,{f,25}}.
{move,{x,0},{y,0}}.
{gc_bif,'-',{f,0},0,[{y,1},{integer,2}],{x,0}}.
{call,1,{f,25}}.
{gc_bif,'+',{f,0},1,[{y,0},{x,0}],{x,0}}.
{deallocate,2}.
return.

% N times a call that makes 200 frames.
{function,deep,1,28}.
{label,27}.
{func_info,{atom,costs},{atom,deep},1}.
{label,28}.
{allocate,1,1}.
{move,{x,0},{y,0}}.
{label,29}.
{test,is_lt,{f,30},[{integer,0},{y,0}]}.
{move,{integer,200},{x,0}}.
{call,1,{f,32}}.
{gc_bif,'-',{f,0},0,[{y,0},{integer,1}],{y,0}}.
{jump,{f,29}}.
{label,30}.
{move,{y,0},{x,0}}.
{deallocate,1}.
return.

% N frames.
{function,depth,1,32}.
{label,31}.
{func_info,{atom,costs},{atom,depth},1}.
{label,32}.
{test,is_lt,{f,33},[{integer,0},{x,0}]}.
{allocate,0,1}.
{gc_bif,'-',{f,0},1,[{x,0},{integer,1}],{x,0}}.
{call,1,{f,32}}.
{gc_bif,'+',{f,0},1,[{x,0},{integer,1}],{x,0}}.
{deallocate,0}.
return.
{label,33}.
return.

% N times a list of 100 numbers, which is built and reversed.
{function,lists,1,35}.
{label,34}.
{func_info,{atom,costs},{atom,lists},1}.
{label,35}.
{allocate,1,1}.
{move,{x,0},{y,0}}.
{label,36}.
{test,is_lt,{f,37},[{integer,0},{y,0}]}.
{move,{integer,100},{x,0}}.
{move,nil,{x,1}}.
{call,2,{f,39}}.
{move,nil,{x,1}}.
{call,2,{f,42}}.
{gc_bif,'-',{f,0},0,[{y,0},{integer,1}],{y,0}}.
{jump,{f,36}}.
{label,37}.
{move,{y,0},{x,0}}.
{deallocate,1}.
return.

% The numbers 1 to N before a list.
{function,build,2,39}.
{label,38}.
{func_info,{atom,costs},{atom,build},2}.
{label,39}.
{test,is_lt,{f,40},[{integer,0},{x,0}]}.
{test_heap,2,2}.
{put_list,{x,0},{x,1},{x,1}}.
{gc_bif,'-',{f,0},2,[{x,0},{integer,1}],{x,0}}.
{call_only,2,{f,39}}.
{label,40}.
{move,{x,1},{x,0}}.
return.

% A list in reverse before another one.
{function,reversed,2,42}.
{label,41}.
{func_info,{atom,costs},{atom,reversed},2}.
{label,42}.
{test,is_nonempty_list,{f,43},[{x,0}]}.
{get_list,{x,0},{x,2},{x,0}}.
{test_heap,2,3}.
{put_list,{x,2},{x,1},{x,1}}.
{call_only,2,{f,42}}.
{label,43}.
{move,{x,1},{x,0}}.
return.

% N times the sum of a list of 100 that stays, its length, head and tail, and it with another one behind it.
{function,walks,1,45}.
{label,44}.
{func_info,{atom,costs},{atom,walks},1}.
{label,45}.
{allocate,2,1}.
{init_yregs,{list,[{y,1}]}}.
{move,{x,0},{y,0}}.
{move,{integer,100},{x,0}}.
{move,nil,{x,1}}.
{call,2,{f,39}}.
{move,{x,0},{y,1}}.
{label,46}.
{test,is_lt,{f,47},[{integer,0},{y,0}]}.
{move,{y,1},{x,0}}.
{move,{integer,0},{x,1}}.
{call,2,{f,49}}.
{gc_bif,length,{f,0},0,[{y,1}],{x,0}}.
{bif,hd,{f,0},[{y,1}],{x,0}}.
{bif,tl,{f,0},[{y,1}],{x,0}}.
{move,{y,1},{x,1}}.
{call_ext,2,{extfunc,erlang,'++',2}}.
{gc_bif,'-',{f,0},0,[{y,0},{integer,1}],{y,0}}.
{jump,{f,46}}.
{label,47}.
{move,{y,0},{x,0}}.
{deallocate,2}.
return.

% The sum of a list, and a number.
{function,total,2,49}.
{label,48}.
{func_info,{atom,costs},{atom,total},2}.
{label,49}.
{test,is_nonempty_list,{f,50},[{x,0}]}.
{get_hd,{x,0},{x,2}}.
{get_tl,{x,0},{x,0}}.
{gc_bif,'+',{f,0},3,[{x,1},{x,2}],{x,1}}.
{call_only,2,{f,49}}.
{label,50}.
{move,{x,1},{x,0}}.
return.

% A tuple that is made, tested, read and changed.
{function,tuples,1,52}.
{label,51}.
{func_info,{atom,costs},{atom,tuples},1}.
{label,52}.
{allocate,1,1}.
{move,{x,0},{y,0}}.
{label,53}.
{test,is_lt,{f,54},[{integer,0},{y,0}]}.
{test_heap,4,0}.
{put_tuple2,{x,1},{list,[{atom,tag},{y,0},{integer,7}]}}.
{test,is_tuple,{f,54},[{x,1}]}.
{test,test_arity,{f,54},[{x,1},3]}.
{test,is_tagged_tuple,{f,54},[{x,1},3,{atom,tag}]}.
{get_tuple_element,{x,1},1,{x,2}}.
{get_tuple_element,{x,1},2,{x,3}}.
{bif,element,{f,0},[{integer,2},{x,1}],{x,2}}.
{bif,tuple_size,{f,0},[{x,1}],{x,3}}.
{move,{integer,3},{x,0}}.
{call_ext,3,{extfunc,erlang,setelement,3}}.
{gc_bif,'-',{f,0},0,[{y,0},{integer,1}],{y,0}}.
{jump,{f,53}}.
{label,54}.
{move,{y,0},{x,0}}.
{deallocate,1}.
return.

% A tuple, an atom and an integer as lists, and a list as a tuple.
{function,conversions,1,56}.
{label,55}.
{func_info,{atom,costs},{atom,conversions},1}.
{label,56}.
{allocate,1,1}.
{move,{x,0},{y,0}}.
{label,57}.
{test,is_lt,{f,58},[{integer,0},{y,0}]}.
{move,{literal,{a,1,b,2,c,3}},{x,0}}.
{call_ext,1,{extfunc,erlang,tuple_to_list,1}}.
{call_ext,1,{extfunc,erlang,list_to_tuple,1}}.
{move,{atom,conversions},{x,0}}.
{call_ext,1,{extfunc,erlang,atom_to_list,1}}.
{move,{integer,-1234567},{x,0}}.
{call_ext,1,{extfunc,erlang,integer_to_list,1}}.
{gc_bif,'-',{f,0},0,[{y,0},{integer,1}],{y,0}}.
{jump,{f,57}}.
{label,58}.
{move,{y,0},{x,0}}.
{deallocate,1}.
return.

% A choice among eight integers that follow one another.
{function,numbers,1,60}.
{label,59}.
{func_info,{atom,costs},{atom,numbers},1}.
{label,60}.
{label,61}.
{test,is_lt,{f,64},[{integer,0},{x,0}]}.
{gc_bif,'band',{f,0},1,[{x,0},{integer,7}],{x,1}}.
{select_val,{x,1},{f,64},{list,[{integer,0},{f,62},{integer,1},{f,63},{integer,2},{f,62},{integer,3},{f,63},{integer,4},{f,62},{integer,5},{f,63},{integer,6},{f,62},{integer,7},{f,63}]}}.
{label,62}.
{gc_bif,'-',{f,0},1,[{x,0},{integer,1}],{x,0}}.
{jump,{f,61}}.
{label,63}.
{gc_bif,'-',{f,0},1,[{x,0},{integer,1}],{x,0}}.
{jump,{f,61}}.
{label,64}.
return.

% Choices among atoms, among integers that lie apart, and among sizes of tuples.
{function,choices,1,66}.
{label,65}.
{func_info,{atom,costs},{atom,choices},1}.
{label,66}.
{move,{literal,{red,green,blue,black,white,grey,pink,brown}},{x,3}}.
{label,67}.
{test,is_lt,{f,71},[{integer,0},{x,0}]}.
{gc_bif,'band',{f,0},4,[{x,0},{integer,7}],{x,1}}.
{gc_bif,'+',{f,0},4,[{x,1},{integer,1}],{x,1}}.
{bif,element,{f,0},[{x,1},{x,3}],{x,2}}.
{gc_bif,'*',{f,0},4,[{x,1},{integer,1000}],{x,1}}.
{select_val,{x,2},{f,71},{list,[{atom,red},{f,68},{atom,green},{f,68},{atom,blue},{f,68},{atom,black},{f,68},{atom,white},{f,68},{atom,grey},{f,68},{atom,pink},{f,68},{atom,brown},{f,68}]}}.
{label,68}.
{select_val,{x,1},{f,69},{list,[{integer,1000},{f,69},{integer,3000},{f,69},{integer,5000},{f,69},{integer,7000},{f,69}]}}.
{label,69}.
{select_tuple_arity,{x,3},{f,71},{list,[2,{f,71},4,{f,71},8,{f,70}]}}.
{label,70}.
{gc_bif,'-',{f,0},4,[{x,0},{integer,1}],{x,0}}.
{jump,{f,67}}.
{label,71}.
return.

% Calls of other modules' functions, by their names in the code and by names in registers.
{function,remote,1,73}.
{label,72}.
{func_info,{atom,costs},{atom,remote},1}.
{label,73}.
{allocate,1,1}.
{move,{x,0},{y,0}}.
{label,74}.
{test,is_lt,{f,75},[{integer,0},{y,0}]}.
{call_ext,1,{extfunc,costs,none,1}}.
{move,{integer,0},{x,0}}.
{call_ext,1,{extfunc,t,sum,1}}.
{move,{atom,costs},{x,1}}.
{move,{atom,none},{x,2}}.
{apply,1}.
{gc_bif,'-',{f,0},0,[{y,0},{integer,1}],{y,0}}.
{jump,{f,74}}.
{label,75}.
{move,{y,0},{x,0}}.
{deallocate,1}.
return.

% Tail calls out of a frame, also of a function by its module's name.
{function,tails,1,77}.
{label,76}.
{func_info,{atom,costs},{atom,tails},1}.
{label,77}.
{test,is_lt,{f,78},[{integer,0},{x,0}]}.
{allocate,2,1}.
{move,{x,0},{y,0}}.
{move,{x,0},{y,1}}.
{gc_bif,'-',{f,0},1,[{x,0},{integer,1}],{x,0}}.
{call_last,1,{f,80},2}.
{label,78}.
return.

% What `tails` calls.
{function,tail,1,80}.
{label,79}.
{func_info,{atom,costs},{atom,tail},1}.
{label,80}.
{allocate,0,1}.
{call_ext_last,1,{extfunc,costs,tails,1},0}.

% N times a `throw` that is caught 20 frames up.
{function,catches,1,82}.
{label,81}.
{func_info,{atom,costs},{atom,catches},1}.
{label,82}.
{allocate,2,1}.
{init_yregs,{list,[{y,1}]}}.
{move,{x,0},{y,0}}.
{label,83}.
{test,is_lt,{f,85},[{integer,0},{y,0}]}.
{move,{integer,20},{x,0}}.
{'catch',{y,1},{f,84}}.
{call,1,{f,87}}.
{label,84}.
{catch_end,{y,1}}.
{gc_bif,'-',{f,0},0,[{y,0},{integer,1}],{y,0}}.
{jump,{f,83}}.
{label,85}.
{move,{y,0},{x,0}}.
{deallocate,2}.
return.

% A `throw` below N frames.
{function,thrown,1,87}.
{label,86}.
{func_info,{atom,costs},{atom,thrown},1}.
{label,87}.
{test,is_lt,{f,88},[{integer,0},{x,0}]}.
{allocate,0,1}.
{gc_bif,'-',{f,0},1,[{x,0},{integer,1}],{x,0}}.
{call,1,{f,87}}.
{deallocate,0}.
return.
{label,88}.
{move,{atom,gone},{x,0}}.
{call_ext_only,1,{extfunc,erlang,throw,1}}.

% Errors of instructions, in `try`: an integer divided by zero, the element of no tuple.
{function,errors,1,90}.
{label,89}.
{func_info,{atom,costs},{atom,errors},1}.
{label,90}.
{allocate,2,1}.
{init_yregs,{list,[{y,1}]}}.
{move,{x,0},{y,0}}.
{label,91}.
{test,is_lt,{f,95},[{integer,0},{y,0}]}.
{'try',{y,1},{f,92}}.
{gc_bif,'div',{f,0},0,[{y,0},{integer,0}],{x,0}}.
{try_end,{y,1}}.
{jump,{f,94}}.
{label,92}.
{try_case,{y,1}}.
{'try',{y,1},{f,93}}.
{bif,element,{f,0},[{integer,1},{atom,none}],{x,0}}.
{try_end,{y,1}}.
{jump,{f,94}}.
{label,93}.
{try_case,{y,1}}.
{label,94}.
{gc_bif,'-',{f,0},0,[{y,0},{integer,1}],{y,0}}.
{jump,{f,91}}.
{label,95}.
{move,{y,0},{x,0}}.
{deallocate,2}.
return.

% The own pid, a new reference, and whether the process lives.
{function,natives,1,97}.
{label,96}.
{func_info,{atom,costs},{atom,natives},1}.
{label,97}.
{allocate,1,1}.
{move,{x,0},{y,0}}.
{label,98}.
{test,is_lt,{f,99},[{integer,0},{y,0}]}.
{call_ext,0,{extfunc,erlang,make_ref,0}}.
{bif,self,{f,0},[],{x,0}}.
{call_ext,1,{extfunc,erlang,is_process_alive,1}}.
{gc_bif,'-',{f,0},0,[{y,0},{integer,1}],{y,0}}.
{jump,{f,98}}.
{label,99}.
{move,{y,0},{x,0}}.
{deallocate,1}.
return.

% A message to itself, a tuple with a list, and its receive, which passes over the one that came first.
{function,mailbox,1,101}.
{label,100}.
{func_info,{atom,costs},{atom,mailbox},1}.
{label,101}.
{allocate,1,1}.
{move,{x,0},{y,0}}.
{bif,self,{f,0},[],{x,0}}.
{move,{atom,first},{x,1}}.
send.
{label,102}.
{test,is_lt,{f,106},[{integer,0},{y,0}]}.
{test_heap,8,0}.
{put_list,{y,0},nil,{x,1}}.
{put_list,{atom,element},{x,1},{x,1}}.
{put_tuple2,{x,1},{list,[{atom,message},{x,1},{integer,1}]}}.
{bif,self,{f,0},[],{x,0}}.
send.
{label,103}.
{loop_rec,{f,105},{x,0}}.
{test,is_tuple,{f,104},[{x,0}]}.
remove_message.
{gc_bif,'-',{f,0},0,[{y,0},{integer,1}],{y,0}}.
{jump,{f,102}}.
{label,104}.
{loop_rec_end,{f,103}}.
{label,105}.
{wait,{f,103}}.
{label,106}.
{move,{y,0},{x,0}}.
{deallocate,1}.
return.

% N messages to itself; then 50 times the last one is received first.
{function,selective,1,108}.
{label,107}.
{func_info,{atom,costs},{atom,selective},1}.
{label,108}.
{allocate,2,1}.
{move,{x,0},{y,0}}.
{move,{integer,50},{y,1}}.
{label,109}.
{test,is_lt,{f,110},[{integer,0},{y,0}]}.
{bif,self,{f,0},[],{x,0}}.
{move,{atom,other},{x,1}}.
send.
{gc_bif,'-',{f,0},0,[{y,0},{integer,1}],{y,0}}.
{jump,{f,109}}.
{label,110}.
{test,is_lt,{f,114},[{integer,0},{y,1}]}.
{bif,self,{f,0},[],{x,0}}.
{move,{atom,last},{x,1}}.
send.
{label,111}.
{loop_rec,{f,113},{x,0}}.
{test,is_eq_exact,{f,112},[{x,0},{atom,last}]}.
remove_message.
{gc_bif,'-',{f,0},0,[{y,1},{integer,1}],{y,1}}.
{jump,{f,110}}.
{label,112}.
{loop_rec_end,{f,111}}.
{label,113}.
{wait,{f,111}}.
{label,114}.
{move,{y,0},{x,0}}.
{deallocate,2}.
return.

% N sleeps of a millisecond.
{function,sleeps,1,116}.
{label,115}.
{func_info,{atom,costs},{atom,sleeps},1}.
{label,116}.
{allocate,1,1}.
{move,{x,0},{y,0}}.
{label,117}.
{test,is_lt,{f,120},[{integer,0},{y,0}]}.
{label,118}.
{loop_rec,{f,119},{x,0}}.
{loop_rec_end,{f,118}}.
{label,119}.
{wait_timeout,{f,118},{integer,1}}.
timeout.
{gc_bif,'-',{f,0},0,[{y,0},{integer,1}],{y,0}}.
{jump,{f,117}}.
{label,120}.
{move,{y,0},{x,0}}.
{deallocate,1}.
return.

% A name that is registered, looked up, sent to and given up.
{function,names,1,122}.
{label,121}.
{func_info,{atom,costs},{atom,names},1}.
{label,122}.
{allocate,1,1}.
{move,{x,0},{y,0}}.
{label,123}.
{test,is_lt,{f,126},[{integer,0},{y,0}]}.
{bif,self,{f,0},[],{x,1}}.
{move,{atom,someone},{x,0}}.
{call_ext,2,{extfunc,erlang,register,2}}.
{move,{atom,someone},{x,0}}.
{call_ext,1,{extfunc,erlang,whereis,1}}.
{move,{atom,someone},{x,0}}.
{move,{atom,message},{x,1}}.
send.
{label,124}.
{loop_rec,{f,125},{x,0}}.
remove_message.
{move,{atom,someone},{x,0}}.
{call_ext,1,{extfunc,erlang,unregister,1}}.
{gc_bif,'-',{f,0},0,[{y,0},{integer,1}],{y,0}}.
{jump,{f,123}}.
{label,125}.
{wait,{f,124}}.
{label,126}.
{move,{y,0},{x,0}}.
{deallocate,1}.
return.

% Processes that wait, and are ended by a signal.
{function,signals,1,128}.
{label,127}.
{func_info,{atom,costs},{atom,signals},1}.
{label,128}.
{allocate,1,1}.
{move,{x,0},{y,0}}.
{label,129}.
{test,is_lt,{f,130},[{integer,0},{y,0}]}.
{move,{atom,costs},{x,0}}.
{move,{atom,waits},{x,1}}.
{move,nil,{x,2}}.
{call_ext,3,{extfunc,erlang,spawn,3}}.
{move,{atom,kill},{x,1}}.
{call_ext,2,{extfunc,erlang,exit,2}}.
{gc_bif,'-',{f,0},0,[{y,0},{integer,1}],{y,0}}.
{jump,{f,129}}.
{label,130}.
{move,{y,0},{x,0}}.
{deallocate,1}.
return.

% Waits for ever.
{function,waits,0,132}.
{label,131}.
{func_info,{atom,costs},{atom,waits},0}.
{label,132}.
{label,133}.
{loop_rec,{f,134},{x,0}}.
remove_message.
{jump,{f,133}}.
{label,134}.
{wait,{f,133}}.

% Waits for ever, below a frame that has a list of N numbers.
{function,keeps,1,136}.
{label,135}.
{func_info,{atom,costs},{atom,keeps},1}.
{label,136}.
{allocate,1,1}.
{move,nil,{x,1}}.
{call,2,{f,39}}.
{move,{x,0},{y,0}}.
{call,0,{f,132}}.
{move,{y,0},{x,0}}.
{deallocate,1}.
return.

{module, m27_sleep}.  %% version = 0

{exports, [{brief,0},
           {forever,0},
           {module_info,0},
           {module_info,1},
           {sender,2},
           {sleeper,0},
           {twice,1},
           {waiting,2},
           {wanted,1},
           {while,2},
           {zero,1}]}.

{attributes, []}.

{labels, 50}.


{function, waiting, 2, 2}.
  {label,1}.
    {line,[{location,"m27_sleep.erl",6}]}.
    {func_info,{atom,m27_sleep},{atom,waiting},2}.
  {label,2}.
    {allocate,1,2}.
    {move,{x,1},{y,0}}.
    {line,[{location,"m27_sleep.erl",7}]}.
    {call,1,{f,34}}. % fill/1
    {'%',{var_info,{x,0},[{type,{t_atom,[ok]}}]}}.
  {label,3}.
    {wait_timeout,{f,3},{y,0}}.
    timeout.
    {move,{integer,0},{x,0}}.
    {call_last,1,{f,42},1}. % count/1


{function, zero, 1, 5}.
  {label,4}.
    {line,[{location,"m27_sleep.erl",12}]}.
    {func_info,{atom,m27_sleep},{atom,zero},1}.
  {label,5}.
    {line,[{location,"m27_sleep.erl",13}]}.
    {gc_bif,'-',{f,0},1,[{x,0},{x,0}],{x,1}}.
    {allocate,1,2}.
    {move,{x,1},{y,0}}.
    {line,[{location,"m27_sleep.erl",14}]}.
    {call,1,{f,34}}. % fill/1
    {'%',{var_info,{x,0},[{type,{t_atom,[ok]}}]}}.
  {label,6}.
    {wait_timeout,{f,6},{y,0}}.
    timeout.
    {move,{integer,0},{x,0}}.
    {call_last,1,{f,42},1}. % count/1


{function, while, 2, 8}.
  {label,7}.
    {line,[{location,"m27_sleep.erl",19}]}.
    {func_info,{atom,m27_sleep},{atom,while},2}.
  {label,8}.
    {allocate_heap,1,4,2}.
    {move,{x,1},{y,0}}.
    {bif,self,{f,0},[],{x,1}}.
    {put_list,{x,0},nil,{x,0}}.
    {put_list,{x,1},{x,0},{x,2}}.
    {move,{atom,sender},{x,1}}.
    {move,{atom,m27_sleep},{x,0}}.
    {line,[{location,"m27_sleep.erl",20}]}.
    {call_ext,3,{extfunc,erlang,spawn,3}}.
  {label,9}.
    {wait_timeout,{f,9},{y,0}}.
    timeout.
    {move,{integer,0},{x,0}}.
    {call_last,1,{f,42},1}. % count/1


{function, sender, 2, 11}.
  {label,10}.
    {line,[{location,"m27_sleep.erl",24}]}.
    {func_info,{atom,m27_sleep},{atom,sender},2}.
  {label,11}.
    {test,is_eq_exact,{f,12},[{x,1},{integer,0}]}.
    {move,{atom,ok},{x,0}}.
    return.
  {label,12}.
    {allocate_heap,2,3,2}.
    {move,{x,1},{y,0}}.
    {move,{x,0},{y,1}}.
    {put_tuple2,{x,1},{list,[{atom,m},{x,1}]}}.
    {line,[{location,"m27_sleep.erl",26}]}.
    send.
  {label,13}.
    {wait_timeout,{f,13},{integer,1}}.
    timeout.
    {line,[{location,"m27_sleep.erl",28}]}.
    {gc_bif,'-',{f,0},0,[{y,0},{integer,1}],{x,1}}.
    {move,{y,1},{x,0}}.
    {call_last,2,{f,11},2}. % sender/2


{function, twice, 1, 15}.
  {label,14}.
    {line,[{location,"m27_sleep.erl",31}]}.
    {func_info,{atom,m27_sleep},{atom,twice},1}.
  {label,15}.
    {allocate,0,1}.
    {line,[{location,"m27_sleep.erl",32}]}.
    {call,1,{f,34}}. % fill/1
    {'%',{var_info,{x,0},[{type,{t_atom,[ok]}}]}}.
  {label,16}.
    {wait_timeout,{f,16},{integer,2}}.
    timeout.
    {bif,self,{f,0},[],{x,0}}.
    {move,{literal,{m,last}},{x,1}}.
    {line,[{location,"m27_sleep.erl",34}]}.
    send.
  {label,17}.
    {wait_timeout,{f,17},{integer,2}}.
    timeout.
    {move,{integer,0},{x,0}}.
    {call_last,1,{f,42},0}. % count/1


{function, wanted, 1, 19}.
  {label,18}.
    {line,[{location,"m27_sleep.erl",39}]}.
    {func_info,{atom,m27_sleep},{atom,wanted},1}.
  {label,19}.
    {allocate,1,1}.
    {init_yregs,{list,[{y,0}]}}.
    {line,[{location,"m27_sleep.erl",40}]}.
    {call,1,{f,34}}. % fill/1
    {'%',{var_info,{x,0},[{type,{t_atom,[ok]}}]}}.
  {label,20}.
    {loop_rec,{f,22},{x,0}}.
    {test,is_eq_exact,{f,21},[{x,0},{atom,none}]}.
    remove_message.
    {move,{atom,none},{y,0}}.
    {jump,{f,23}}.
  {label,21}.
    {loop_rec_end,{f,20}}.
  {label,22}.
    {wait_timeout,{f,20},{integer,3}}.
    timeout.
    {move,{atom,late},{y,0}}.
  {label,23}.
    {wait_timeout,{f,23},{integer,3}}.
    timeout.
    {move,{integer,0},{x,0}}.
    {line,[{location,"m27_sleep.erl",43}]}.
    {call,1,{f,42}}. % count/1
    {'%',{var_info,{x,0},[{type,{t_integer,any}}]}}.
    {test_heap,3,1}.
    {put_tuple2,{x,0},{list,[{y,0},{x,0}]}}.
    {deallocate,1}.
    return.


{function, forever, 0, 25}.
  {label,24}.
    {line,[{location,"m27_sleep.erl",46}]}.
    {func_info,{atom,m27_sleep},{atom,forever},0}.
  {label,25}.
    {allocate,2,0}.
    {init_yregs,{list,[{y,0},{y,1}]}}.
    {move,{atom,sleeper},{x,1}}.
    {move,nil,{x,2}}.
    {move,{atom,m27_sleep},{x,0}}.
    {line,[{location,"m27_sleep.erl",47}]}.
    {call_ext,3,{extfunc,erlang,spawn,3}}.
    {move,{x,0},{y,1}}.
  {label,26}.
    {wait_timeout,{f,26},{integer,30}}.
    timeout.
    {move,{y,1},{x,0}}.
    {line,[{location,"m27_sleep.erl",49}]}.
    {call_ext,1,{extfunc,erlang,is_process_alive,1}}.
    {move,{x,0},{y,0}}.
    {move,{y,1},{x,0}}.
    {move,{atom,kill},{x,1}}.
    {line,[{location,"m27_sleep.erl",50}]}.
    {call_ext,2,{extfunc,erlang,exit,2}}.
  {label,27}.
    {wait_timeout,{f,27},{integer,30}}.
    timeout.
    {move,{y,1},{x,0}}.
    {move,{y,0},{y,1}}.
    {trim,1,1}.
    {line,[{location,"m27_sleep.erl",52}]}.
    {call_ext,1,{extfunc,erlang,is_process_alive,1}}.
    {test_heap,3,1}.
    {put_tuple2,{x,0},{list,[{y,0},{x,0}]}}.
    {deallocate,1}.
    return.


{function, sleeper, 0, 29}.
  {label,28}.
    {line,[{location,"m27_sleep.erl",54}]}.
    {func_info,{atom,m27_sleep},{atom,sleeper},0}.
  {label,29}.
    {allocate,0,0}.
    {move,{atom,brief},{x,1}}.
    {move,nil,{x,2}}.
    {move,{atom,m27_sleep},{x,0}}.
    {line,[{location,"m27_sleep.erl",55}]}.
    {call_ext,3,{extfunc,erlang,spawn,3}}.
    {move,{x,0},{x,1}}.
    {move,{atom,process},{x,0}}.
    {line,[{location,"m27_sleep.erl",56}]}.
    {call_ext,2,{extfunc,erlang,monitor,2}}.
  {label,30}.
    {wait,{f,30}}.


{function, brief, 0, 32}.
  {label,31}.
    {line,[{location,"m27_sleep.erl",59}]}.
    {func_info,{atom,m27_sleep},{atom,brief},0}.
  {label,32}.
    {move,{atom,ok},{x,0}}.
    return.


{function, fill, 1, 34}.
  {label,33}.
    {line,[{location,"m27_sleep.erl",62}]}.
    {func_info,{atom,m27_sleep},{atom,fill},1}.
  {label,34}.
    {allocate,0,1}.
    {line,[{location,"m27_sleep.erl",63}]}.
    {call,1,{f,39}}. % put_in/1
    {'%',{var_info,{x,0},[{type,{t_atom,[ok]}}]}}.
    {bif,self,{f,0},[],{x,0}}.
    {move,{atom,full},{x,1}}.
    {line,[{location,"m27_sleep.erl",64}]}.
    send.
  {label,35}.
    {loop_rec,{f,37},{x,0}}.
    {test,is_eq_exact,{f,36},[{x,0},{atom,full}]}.
    remove_message.
    {move,{atom,ok},{x,0}}.
    {deallocate,0}.
    return.
  {label,36}.
    {loop_rec_end,{f,35}}.
  {label,37}.
    {wait,{f,35}}.


{function, put_in, 1, 39}.
  {label,38}.
    {line,[{location,"m27_sleep.erl",67}]}.
    {func_info,{atom,m27_sleep},{atom,put_in},1}.
  {label,39}.
    {test,is_eq_exact,{f,40},[{x,0},{integer,0}]}.
    {move,{atom,ok},{x,0}}.
    return.
  {label,40}.
    {allocate_heap,1,3,1}.
    {move,{x,0},{y,0}}.
    {bif,self,{f,0},[],{x,0}}.
    {put_tuple2,{x,1},{list,[{atom,m},{y,0}]}}.
    {line,[{location,"m27_sleep.erl",68}]}.
    send.
    {gc_bif,'-',{f,0},0,[{y,0},{integer,1}],{x,0}}.
    {call_last,1,{f,39},1}. % put_in/1


{function, count, 1, 42}.
  {label,41}.
    {line,[{location,"m27_sleep.erl",70}]}.
    {func_info,{atom,m27_sleep},{atom,count},1}.
  {label,42}.
    {'%',{var_info,{x,0},[{type,{t_integer,any}}]}}.
    {allocate,1,1}.
    {move,{x,0},{y,0}}.
  {label,43}.
    {loop_rec,{f,45},{x,0}}.
    {test,is_tagged_tuple,{f,44},[{x,0},2,{atom,m}]}.
    remove_message.
    {line,[{location,"m27_sleep.erl",71}]}.
    {gc_bif,'+',{f,0},0,[{tr,{y,0},{t_integer,any}},{integer,1}],{x,0}}.
    {call_last,1,{f,42},1}. % count/1
  {label,44}.
    {loop_rec_end,{f,43}}.
  {label,45}.
    timeout.
    {move,{y,0},{x,0}}.
    {deallocate,1}.
    return.


{function, module_info, 0, 47}.
  {label,46}.
    {line,[]}.
    {func_info,{atom,m27_sleep},{atom,module_info},0}.
  {label,47}.
    {move,{atom,m27_sleep},{x,0}}.
    {call_ext_only,1,{extfunc,erlang,get_module_info,1}}.


{function, module_info, 1, 49}.
  {label,48}.
    {line,[]}.
    {func_info,{atom,m27_sleep},{atom,module_info},1}.
  {label,49}.
    {move,{x,0},{x,1}}.
    {move,{atom,m27_sleep},{x,0}}.
    {call_ext_only,2,{extfunc,erlang,get_module_info,2}}.

{module, m25_monitor}.  %% version = 0

{exports, [{bad,1},
           {bad_ref,1},
           {dropped,0},
           {flushed,0},
           {kept,0},
           {killed,0},
           {module_info,0},
           {module_info,1},
           {noproc,0},
           {order,0},
           {own,0},
           {quit,0},
           {refs,1},
           {signalled,1},
           {sleeper,0},
           {twice,0}]}.

{attributes, []}.

{labels, 95}.


{function, gone, 1, 2}.
  {label,1}.
    {line,[{location,"m25_monitor.erl",21}]}.
    {func_info,{atom,m25_monitor},{atom,gone},1}.
  {label,2}.
    {'%',{var_info,{x,0},[{type,pid}]}}.
    {allocate,1,1}.
    {move,{x,0},{y,0}}.
    {call_ext,1,{extfunc,erlang,is_process_alive,1}}.
    {select_val,{x,0},{f,5},{list,[{atom,false},{f,4},{atom,true},{f,3}]}}.
  {label,3}.
    {move,{y,0},{x,0}}.
    {call_last,1,{f,2},1}. % gone/1
  {label,4}.
    {move,{atom,gone},{x,0}}.
    {deallocate,1}.
    return.
  {label,5}.
    {case_end,{x,0}}.


{function, quit, 0, 7}.
  {label,6}.
    {line,[{location,"m25_monitor.erl",22}]}.
    {func_info,{atom,m25_monitor},{atom,quit},0}.
  {label,7}.
    {move,{atom,quit},{x,0}}.
    return.


{function, sleeper, 0, 9}.
  {label,8}.
    {line,[{location,"m25_monitor.erl",23}]}.
    {func_info,{atom,m25_monitor},{atom,sleeper},0}.
  {label,9}.
    {allocate,0,0}.
  {label,10}.
    {loop_rec,{f,12},{x,0}}.
    {test,is_eq_exact,{f,11},[{x,0},{atom,wake}]}.
    remove_message.
    {move,{atom,ok},{x,0}}.
    {deallocate,0}.
    return.
  {label,11}.
    {loop_rec_end,{f,10}}.
  {label,12}.
    {wait,{f,10}}.


{function, noproc, 0, 14}.
  {label,13}.
    {line,[{location,"m25_monitor.erl",24}]}.
    {func_info,{atom,m25_monitor},{atom,noproc},0}.
  {label,14}.
    {allocate,3,0}.
    {init_yregs,{list,[{y,0},{y,1},{y,2}]}}.
    {move,{atom,quit},{x,1}}.
    {move,nil,{x,2}}.
    {move,{atom,m25_monitor},{x,0}}.
    {line,[{location,"m25_monitor.erl",25}]}.
    {call_ext,3,{extfunc,erlang,spawn,3}}.
    {move,{x,0},{y,2}}.
    {call,1,{f,2}}. % gone/1
    {'%',{var_info,{x,0},[{type,{t_atom,[gone]}}]}}.
    {recv_marker_reserve,{y,1}}.
    {move,{y,2},{x,1}}.
    {move,{atom,process},{x,0}}.
    {call_ext,2,{extfunc,erlang,monitor,2}}.
    {move,{x,0},{y,0}}.
    {recv_marker_bind,{y,1},{x,0}}.
    {recv_marker_use,{x,0}}.
  {label,15}.
    {loop_rec,{f,17},{x,0}}.
    {test,is_tagged_tuple,{f,16},[{x,0},5,{atom,'DOWN'}]}.
    {get_tuple_element,{x,0},1,{x,1}}.
    {get_tuple_element,{x,0},2,{x,2}}.
    {get_tuple_element,{x,0},3,{x,3}}.
    {test,is_eq_exact,{f,16},[{x,2},{atom,process}]}.
    {test,is_eq_exact,{f,16},[{x,1},{tr,{y,0},reference}]}.
    {test,is_eq_exact,{f,16},[{x,3},{tr,{y,2},pid}]}.
    {recv_marker_clear,{y,0}}.
    {get_tuple_element,{x,0},4,{x,0}}.
    remove_message.
    {deallocate,3}.
    return.
  {label,16}.
    {loop_rec_end,{f,15}}.
  {label,17}.
    {wait,{f,15}}.


{function, twice, 0, 19}.
  {label,18}.
    {line,[{location,"m25_monitor.erl",28}]}.
    {func_info,{atom,m25_monitor},{atom,twice},0}.
  {label,19}.
    {allocate,4,0}.
    {init_yregs,{list,[{y,0},{y,1},{y,2},{y,3}]}}.
    {move,{atom,sleeper},{x,1}}.
    {move,nil,{x,2}}.
    {move,{atom,m25_monitor},{x,0}}.
    {line,[{location,"m25_monitor.erl",29}]}.
    {call_ext,3,{extfunc,erlang,spawn,3}}.
    {recv_marker_reserve,{y,3}}.
    {move,{x,0},{y,2}}.
    {move,{x,0},{x,1}}.
    {move,{atom,process},{x,0}}.
    {call_ext,2,{extfunc,erlang,monitor,2}}.
    {recv_marker_reserve,{y,1}}.
    {recv_marker_bind,{y,3},{x,0}}.
    {move,{x,0},{y,3}}.
    {move,{y,2},{x,1}}.
    {move,{atom,process},{x,0}}.
    {call_ext,2,{extfunc,erlang,monitor,2}}.
    {recv_marker_bind,{y,1},{x,0}}.
    {move,{x,0},{y,1}}.
    {move,{y,2},{x,0}}.
    {move,{atom,wake},{x,1}}.
    send.
    {recv_marker_use,{y,1}}.
  {label,20}.
    {loop_rec,{f,25},{x,0}}.
    {test,is_tagged_tuple,{f,24},[{x,0},5,{atom,'DOWN'}]}.
    {get_tuple_element,{x,0},1,{x,1}}.
    {get_tuple_element,{x,0},2,{x,2}}.
    {get_tuple_element,{x,0},3,{x,3}}.
    {test,is_eq_exact,{f,24},[{x,2},{atom,process}]}.
    {test,is_eq_exact,{f,24},[{x,1},{tr,{y,1},reference}]}.
    {test,is_eq_exact,{f,24},[{x,3},{tr,{y,2},pid}]}.
    {move,{x,0},{y,0}}.
    {recv_marker_clear,{y,1}}.
    remove_message.
    {recv_marker_use,{y,3}}.
  {label,21}.
    {loop_rec,{f,23},{x,0}}.
    {test,is_tagged_tuple,{f,22},[{x,0},5,{atom,'DOWN'}]}.
    {get_tuple_element,{x,0},1,{x,1}}.
    {get_tuple_element,{x,0},2,{x,2}}.
    {get_tuple_element,{x,0},3,{x,3}}.
    {test,is_eq_exact,{f,22},[{x,2},{atom,process}]}.
    {test,is_eq_exact,{f,22},[{x,1},{tr,{y,3},reference}]}.
    {test,is_eq_exact,{f,22},[{x,3},{tr,{y,2},pid}]}.
    {test_heap,4,1}.
    {recv_marker_clear,{y,3}}.
    {get_tuple_element,{x,0},4,{x,0}}.
    {get_tuple_element,{y,0},4,{x,1}}.
    remove_message.
    {bif,'=:=',{f,0},[{tr,{y,3},reference},{tr,{y,1},reference}],{x,2}}.
    {put_tuple2,{x,0},{list,[{x,1},{x,0},{x,2}]}}.
    {deallocate,4}.
    return.
  {label,22}.
    {loop_rec_end,{f,21}}.
  {label,23}.
    {wait,{f,21}}.
  {label,24}.
    {loop_rec_end,{f,20}}.
  {label,25}.
    {wait,{f,20}}.


{function, own, 0, 27}.
  {label,26}.
    {line,[{location,"m25_monitor.erl",31}]}.
    {func_info,{atom,m25_monitor},{atom,own},0}.
  {label,27}.
    {allocate,1,0}.
    {init_yregs,{list,[{y,0}]}}.
    {bif,self,{f,0},[],{x,1}}.
    {move,{atom,process},{x,0}}.
    {call_ext,2,{extfunc,erlang,monitor,2}}.
    {move,{x,0},{y,0}}.
  {label,28}.
    {loop_rec,{f,29},{x,0}}.
    remove_message.
    {deallocate,1}.
    return.
  {label,29}.
    {wait_timeout,{f,28},{integer,10}}.
    timeout.
    {move,{y,0},{x,0}}.
    {trim,1,0}.
    {call_ext,1,{extfunc,erlang,demonitor,1}}.
    {test_heap,3,1}.
    {put_tuple2,{x,0},{list,[{atom,true},{x,0}]}}.
    {deallocate,0}.
    return.


{function, dropped, 0, 31}.
  {label,30}.
    {line,[{location,"m25_monitor.erl",33}]}.
    {func_info,{atom,m25_monitor},{atom,dropped},0}.
  {label,31}.
    {allocate,1,0}.
    {init_yregs,{list,[{y,0}]}}.
    {move,{atom,sleeper},{x,1}}.
    {move,nil,{x,2}}.
    {move,{atom,m25_monitor},{x,0}}.
    {line,[{location,"m25_monitor.erl",34}]}.
    {call_ext,3,{extfunc,erlang,spawn,3}}.
    {move,{x,0},{y,0}}.
    {move,{x,0},{x,1}}.
    {move,{atom,process},{x,0}}.
    {call_ext,2,{extfunc,erlang,monitor,2}}.
    {call_ext,1,{extfunc,erlang,demonitor,1}}.
    {test,is_eq_exact,{f,34},[{x,0},{atom,true}]}.
    {move,{atom,wake},{x,1}}.
    {move,{y,0},{x,0}}.
    send.
    {move,{y,0},{x,0}}.
    {init_yregs,{list,[{y,0}]}}.
    {call,1,{f,2}}. % gone/1
    {'%',{var_info,{x,0},[{type,{t_atom,[gone]}}]}}.
  {label,32}.
    {loop_rec,{f,33},{x,0}}.
    remove_message.
    {deallocate,1}.
    return.
  {label,33}.
    {wait_timeout,{f,32},{integer,20}}.
    timeout.
    {move,{atom,none},{x,0}}.
    {deallocate,1}.
    return.
  {label,34}.
    {badmatch,{x,0}}.


{function, flushed, 0, 36}.
  {label,35}.
    {line,[{location,"m25_monitor.erl",36}]}.
    {func_info,{atom,m25_monitor},{atom,flushed},0}.
  {label,36}.
    {allocate,1,0}.
    {init_yregs,{list,[{y,0}]}}.
    {move,{atom,quit},{x,1}}.
    {move,nil,{x,2}}.
    {move,{atom,m25_monitor},{x,0}}.
    {line,[{location,"m25_monitor.erl",37}]}.
    {call_ext,3,{extfunc,erlang,spawn,3}}.
    {recv_marker_reserve,{y,0}}.
    {move,{x,0},{x,1}}.
    {move,{atom,process},{x,0}}.
    {call_ext,2,{extfunc,erlang,monitor,2}}.
    {recv_marker_bind,{y,0},{x,0}}.
    {move,{x,0},{y,0}}.
    {call,1,{f,47}}. % arrived/1
    {'%',{var_info,{x,0},[{type,{t_atom,[never,ok]}}]}}.
    {move,{literal,[flush]},{x,1}}.
    {move,{y,0},{x,0}}.
    {call_ext,2,{extfunc,erlang,demonitor,2}}.
    {recv_marker_clear,{y,0}}.
    {test,is_eq_exact,{f,39},[{x,0},{atom,true}]}.
  {label,37}.
    {loop_rec,{f,38},{x,0}}.
    remove_message.
    {deallocate,1}.
    return.
  {label,38}.
    {wait_timeout,{f,37},{integer,20}}.
    timeout.
    {move,{atom,none},{x,0}}.
    {deallocate,1}.
    return.
  {label,39}.
    {badmatch,{x,0}}.


{function, kept, 0, 41}.
  {label,40}.
    {line,[{location,"m25_monitor.erl",39}]}.
    {func_info,{atom,m25_monitor},{atom,kept},0}.
  {label,41}.
    {allocate,2,0}.
    {init_yregs,{list,[{y,0},{y,1}]}}.
    {move,{atom,quit},{x,1}}.
    {move,nil,{x,2}}.
    {move,{atom,m25_monitor},{x,0}}.
    {line,[{location,"m25_monitor.erl",40}]}.
    {call_ext,3,{extfunc,erlang,spawn,3}}.
    {recv_marker_reserve,{y,1}}.
    {move,{x,0},{y,0}}.
    {move,{x,0},{x,1}}.
    {move,{atom,process},{x,0}}.
    {call_ext,2,{extfunc,erlang,monitor,2}}.
    {recv_marker_bind,{y,1},{x,0}}.
    {move,{x,0},{y,1}}.
    {call,1,{f,47}}. % arrived/1
    {'%',{var_info,{x,0},[{type,{t_atom,[never,ok]}}]}}.
    {move,{y,1},{x,0}}.
    {call_ext,1,{extfunc,erlang,demonitor,1}}.
    {test,is_eq_exact,{f,45},[{x,0},{atom,true}]}.
    {recv_marker_use,{y,1}}.
  {label,42}.
    {loop_rec,{f,44},{x,0}}.
    {test,is_tagged_tuple,{f,43},[{x,0},5,{atom,'DOWN'}]}.
    {get_tuple_element,{x,0},1,{x,1}}.
    {get_tuple_element,{x,0},2,{x,2}}.
    {get_tuple_element,{x,0},3,{x,3}}.
    {test,is_eq_exact,{f,43},[{x,2},{atom,process}]}.
    {test,is_eq_exact,{f,43},[{x,1},{tr,{y,1},reference}]}.
    {test,is_eq_exact,{f,43},[{x,3},{tr,{y,0},pid}]}.
    {recv_marker_clear,{y,1}}.
    {get_tuple_element,{x,0},4,{x,0}}.
    remove_message.
    {deallocate,2}.
    return.
  {label,43}.
    {loop_rec_end,{f,42}}.
  {label,44}.
    {wait_timeout,{f,42},{integer,1000}}.
    timeout.
    {recv_marker_clear,{y,1}}.
    {move,{atom,none},{x,0}}.
    {deallocate,2}.
    return.
  {label,45}.
    {recv_marker_clear,{y,1}}.
    {badmatch,{x,0}}.


{function, arrived, 1, 47}.
  {label,46}.
    {line,[{location,"m25_monitor.erl",43}]}.
    {func_info,{atom,m25_monitor},{atom,arrived},1}.
  {label,47}.
    {'%',{var_info,{x,0},[{type,reference}]}}.
    {allocate,4,1}.
    {init_yregs,{list,[{y,0},{y,1},{y,2}]}}.
    {move,{x,0},{y,3}}.
    {move,{atom,quit},{x,1}}.
    {move,nil,{x,2}}.
    {move,{atom,m25_monitor},{x,0}}.
    {call_ext,3,{extfunc,erlang,spawn,3}}.
    {recv_marker_reserve,{y,2}}.
    {move,{x,0},{y,1}}.
    {move,{x,0},{x,1}}.
    {move,{atom,process},{x,0}}.
    {call_ext,2,{extfunc,erlang,monitor,2}}.
    {move,{x,0},{y,0}}.
    {recv_marker_bind,{y,2},{x,0}}.
    {recv_marker_use,{x,0}}.
  {label,48}.
    {loop_rec,{f,50},{x,0}}.
    {test,is_tagged_tuple,{f,49},[{x,0},5,{atom,'DOWN'}]}.
    {get_tuple_element,{x,0},1,{x,1}}.
    {get_tuple_element,{x,0},2,{x,2}}.
    {get_tuple_element,{x,0},3,{x,0}}.
    {test,is_eq_exact,{f,49},[{x,2},{atom,process}]}.
    {test,is_eq_exact,{f,49},[{x,1},{tr,{y,0},reference}]}.
    {test,is_eq_exact,{f,49},[{x,0},{tr,{y,1},pid}]}.
    {recv_marker_clear,{y,3}}.
    {recv_marker_clear,{y,0}}.
    remove_message.
    {move,{integer,20},{x,0}}.
    {call_last,1,{f,52},4}. % wait/1
  {label,49}.
    {loop_rec_end,{f,48}}.
  {label,50}.
    {wait,{f,48}}.


{function, wait, 1, 52}.
  {label,51}.
    {line,[{location,"m25_monitor.erl",44}]}.
    {func_info,{atom,m25_monitor},{atom,wait},1}.
  {label,52}.
    {'%',{var_info,{x,0},[{type,{t_integer,{20,20}}}]}}.
    {allocate,0,0}.
  {label,53}.
    {loop_rec,{f,55},{x,0}}.
    {test,is_eq_exact,{f,54},[{x,0},{atom,never}]}.
    remove_message.
    {move,{atom,never},{x,0}}.
    {deallocate,0}.
    return.
  {label,54}.
    {loop_rec_end,{f,53}}.
  {label,55}.
    {wait_timeout,{f,53},{integer,20}}.
    timeout.
    {move,{atom,ok},{x,0}}.
    {deallocate,0}.
    return.


{function, killed, 0, 57}.
  {label,56}.
    {line,[{location,"m25_monitor.erl",45}]}.
    {func_info,{atom,m25_monitor},{atom,killed},0}.
  {label,57}.
    {allocate,2,0}.
    {init_yregs,{list,[{y,0},{y,1}]}}.
    {move,{atom,sleeper},{x,1}}.
    {move,nil,{x,2}}.
    {move,{atom,m25_monitor},{x,0}}.
    {call_ext,3,{extfunc,erlang,spawn,3}}.
    {recv_marker_reserve,{y,1}}.
    {move,{x,0},{y,0}}.
    {move,{x,0},{x,1}}.
    {move,{atom,process},{x,0}}.
    {call_ext,2,{extfunc,erlang,monitor,2}}.
    {recv_marker_bind,{y,1},{x,0}}.
    {move,{x,0},{y,1}}.
    {move,{y,0},{x,0}}.
    {move,{atom,kill},{x,1}}.
    {call_ext,2,{extfunc,erlang,exit,2}}.
    {recv_marker_use,{y,1}}.
  {label,58}.
    {loop_rec,{f,60},{x,0}}.
    {test,is_tagged_tuple,{f,59},[{x,0},5,{atom,'DOWN'}]}.
    {get_tuple_element,{x,0},1,{x,1}}.
    {get_tuple_element,{x,0},2,{x,2}}.
    {get_tuple_element,{x,0},3,{x,3}}.
    {test,is_eq_exact,{f,59},[{x,2},{atom,process}]}.
    {test,is_eq_exact,{f,59},[{x,1},{tr,{y,1},reference}]}.
    {test,is_eq_exact,{f,59},[{x,3},{tr,{y,0},pid}]}.
    {recv_marker_clear,{y,1}}.
    {get_tuple_element,{x,0},4,{x,0}}.
    remove_message.
    {deallocate,2}.
    return.
  {label,59}.
    {loop_rec_end,{f,58}}.
  {label,60}.
    {wait,{f,58}}.


{function, signalled, 1, 62}.
  {label,61}.
    {line,[{location,"m25_monitor.erl",46}]}.
    {func_info,{atom,m25_monitor},{atom,signalled},1}.
  {label,62}.
    {allocate,3,1}.
    {init_yregs,{list,[{y,0},{y,1}]}}.
    {move,{x,0},{y,2}}.
    {move,{atom,sleeper},{x,1}}.
    {move,nil,{x,2}}.
    {move,{atom,m25_monitor},{x,0}}.
    {call_ext,3,{extfunc,erlang,spawn,3}}.
    {recv_marker_reserve,{y,1}}.
    {move,{x,0},{y,0}}.
    {move,{x,0},{x,1}}.
    {move,{atom,process},{x,0}}.
    {call_ext,2,{extfunc,erlang,monitor,2}}.
    {recv_marker_bind,{y,1},{x,0}}.
    {move,{y,0},{x,2}}.
    {move,{y,2},{x,1}}.
    {move,{x,0},{y,2}}.
    {init_yregs,{list,[{y,1}]}}.
    {move,{x,2},{x,0}}.
    {call_ext,2,{extfunc,erlang,exit,2}}.
    {recv_marker_use,{y,2}}.
  {label,63}.
    {loop_rec,{f,65},{x,0}}.
    {test,is_tagged_tuple,{f,64},[{x,0},5,{atom,'DOWN'}]}.
    {get_tuple_element,{x,0},1,{x,1}}.
    {get_tuple_element,{x,0},2,{x,2}}.
    {get_tuple_element,{x,0},3,{x,3}}.
    {test,is_eq_exact,{f,64},[{x,2},{atom,process}]}.
    {test,is_eq_exact,{f,64},[{x,1},{tr,{y,2},reference}]}.
    {test,is_eq_exact,{f,64},[{x,3},{tr,{y,0},pid}]}.
    {recv_marker_clear,{y,2}}.
    {get_tuple_element,{x,0},4,{x,0}}.
    remove_message.
    {deallocate,3}.
    return.
  {label,64}.
    {loop_rec_end,{f,63}}.
  {label,65}.
    {wait,{f,63}}.


{function, refs, 1, 67}.
  {label,66}.
    {line,[{location,"m25_monitor.erl",49}]}.
    {func_info,{atom,m25_monitor},{atom,refs},1}.
  {label,67}.
    {allocate,0,1}.
    {call,1,{f,69}}. % made/1
    {'%',{var_info,{x,0},[{type,{t_list,reference,nil}}]}}.
    {call_last,1,{f,72},0}. % distinct/1


{function, made, 1, 69}.
  {label,68}.
    {line,[{location,"m25_monitor.erl",50}]}.
    {func_info,{atom,m25_monitor},{atom,made},1}.
  {label,69}.
    {test,is_eq_exact,{f,70},[{x,0},{integer,0}]}.
    {move,nil,{x,0}}.
    return.
  {label,70}.
    {allocate,1,1}.
    {move,{x,0},{y,0}}.
    {call_ext,0,{extfunc,erlang,make_ref,0}}.
    {line,[{location,"m25_monitor.erl",51}]}.
    {gc_bif,'-',{f,0},1,[{y,0},{integer,1}],{x,1}}.
    {move,{x,0},{y,0}}.
    {move,{x,1},{x,0}}.
    {call,1,{f,69}}. % made/1
    {'%',{var_info,{x,0},[{type,{t_list,reference,nil}}]}}.
    {test_heap,2,1}.
    {put_list,{y,0},{x,0},{x,0}}.
    {deallocate,1}.
    return.


{function, distinct, 1, 72}.
  {label,71}.
    {line,[{location,"m25_monitor.erl",52}]}.
    {func_info,{atom,m25_monitor},{atom,distinct},1}.
  {label,72}.
    {'%',{var_info,{x,0},[{type,{t_list,reference,nil}}]}}.
    {test,is_nonempty_list,{f,74},[{x,0}]}.
    {allocate,1,1}.
    {get_list,{x,0},{x,0},{y,0}}.
    {move,{y,0},{x,1}}.
    {line,[{location,"m25_monitor.erl",53}]}.
    {call,2,{f,76}}. % member/2
    {'%',{var_info,{x,0},[{type,{t_atom,[false,true]}}]}}.
    {test,is_eq_exact,{f,73},[{x,0},{atom,true}]}.
    {move,{atom,false},{x,0}}.
    {deallocate,1}.
    return.
  {label,73}.
    {move,{y,0},{x,0}}.
    {call_last,1,{f,72},1}. % distinct/1
  {label,74}.
    {move,{atom,true},{x,0}}.
    return.


{function, member, 2, 76}.
  {label,75}.
    {line,[{location,"m25_monitor.erl",54}]}.
    {func_info,{atom,m25_monitor},{atom,member},2}.
  {label,76}.
    {'%',{var_info,{x,0},[{type,reference}]}}.
    {'%',{var_info,{x,1},[{type,{t_list,reference,nil}}]}}.
    {test,is_nonempty_list,{f,78},[{x,1}]}.
    {get_list,{x,1},{x,2},{x,1}}.
    {test,is_eq_exact,{f,77},[{tr,{x,2},reference},{tr,{x,0},reference}]}.
    {move,{atom,true},{x,0}}.
    return.
  {label,77}.
    {call_only,2,{f,76}}. % member/2
  {label,78}.
    {move,{atom,false},{x,0}}.
    return.


{function, order, 0, 80}.
  {label,79}.
    {line,[{location,"m25_monitor.erl",57}]}.
    {func_info,{atom,m25_monitor},{atom,order},0}.
  {label,80}.
    {allocate,7,0}.
    {init_yregs,{list,[{y,0},{y,1},{y,2},{y,3},{y,4},{y,5},{y,6}]}}.
    {call_ext,0,{extfunc,erlang,make_ref,0}}.
    {bif,'<',{f,0},[{atom,a},{tr,{x,0},reference}],{y,6}}.
    {bif,self,{f,0},[],{x,1}}.
    {bif,'<',{f,0},[{tr,{x,0},reference},{x,1}],{y,5}}.
    {bif,'<',{f,0},[{tr,{x,0},reference},{literal,{}}],{y,4}}.
    {bif,'<',{f,0},[{integer,1},{tr,{x,0},reference}],{y,3}}.
    {bif,'==',{f,0},[{tr,{x,0},reference},{tr,{x,0},reference}],{y,2}}.
    {move,{x,0},{y,1}}.
    {call_ext,0,{extfunc,erlang,make_ref,0}}.
    {bif,'=:=',{f,0},[{tr,{y,1},reference},{tr,{x,0},reference}],{y,0}}.
    {move,{atom,zzz},{x,1}}.
    {move,{y,1},{x,0}}.
    {call_ext,2,{extfunc,erlang,max,2}}.
    {test_heap,10,1}.
    {bif,'=:=',{f,0},[{x,0},{tr,{y,1},reference}],{x,0}}.
    {put_tuple2,{x,0},
                {list,[{y,6},
                       {y,5},
                       {y,4},
                       {y,3},
                       {y,2},
                       {y,0},
                       {x,0},
                       {atom,false},
                       {atom,false}]}}.
    {deallocate,7}.
    return.


{function, bad, 1, 82}.
  {label,81}.
    {line,[{location,"m25_monitor.erl",58}]}.
    {func_info,{atom,m25_monitor},{atom,bad},1}.
  {label,82}.
    {allocate,1,1}.
    {'try',{y,0},{f,83}}.
    {move,{x,0},{x,1}}.
    {move,{atom,process},{x,0}}.
    {call_ext,2,{extfunc,erlang,monitor,2}}.
    {try_end,{y,0}}.
    {move,{atom,fine},{x,0}}.
    {deallocate,1}.
    return.
  {label,83}.
    {try_case,{y,0}}.
    {test,is_eq_exact,
          {f,84},
          [{tr,{x,0},{t_atom,[error,exit,throw]}},{atom,error}]}.
    {move,{x,1},{x,0}}.
    {deallocate,1}.
    return.
  {label,84}.
    {bif,raise,{f,0},[{x,2},{x,1}],{x,0}}.


{function, bad_ref, 1, 86}.
  {label,85}.
    {line,[{location,"m25_monitor.erl",59}]}.
    {func_info,{atom,m25_monitor},{atom,bad_ref},1}.
  {label,86}.
    {allocate,3,1}.
    {init_yregs,{list,[{y,0}]}}.
    {move,{x,0},{y,1}}.
    {'try',{y,2},{f,87}}.
    {call_ext,1,{extfunc,erlang,demonitor,1}}.
    {try_end,{y,2}}.
    {move,{x,0},{y,0}}.
    {jump,{f,88}}.
  {label,87}.
    {try_case,{y,2}}.
    {test,is_eq_exact,
          {f,90},
          [{tr,{x,0},{t_atom,[error,exit,throw]}},{atom,error}]}.
    {move,{x,1},{y,0}}.
  {label,88}.
    {'try',{y,2},{f,89}}.
    {move,{literal,[flush]},{x,1}}.
    {move,{y,1},{x,0}}.
    {init_yregs,{list,[{y,1}]}}.
    {line,[{scope,[3,4]},{location,"m25_monitor.erl",59}]}.
    {call_ext,2,{extfunc,erlang,demonitor,2}}.
    {try_end,{y,2}}.
    {test_heap,3,1}.
    {put_tuple2,{x,0},{list,[{y,0},{x,0}]}}.
    {deallocate,3}.
    return.
  {label,89}.
    {try_case,{y,2}}.
    {test,is_eq_exact,
          {f,90},
          [{tr,{x,0},{t_atom,[error,exit,throw]}},{atom,error}]}.
    {test_heap,3,2}.
    {put_tuple2,{x,0},{list,[{y,0},{x,1}]}}.
    {deallocate,3}.
    return.
  {label,90}.
    {bif,raise,{f,0},[{x,2},{x,1}],{x,0}}.


{function, module_info, 0, 92}.
  {label,91}.
    {line,[]}.
    {func_info,{atom,m25_monitor},{atom,module_info},0}.
  {label,92}.
    {move,{atom,m25_monitor},{x,0}}.
    {call_ext_only,1,{extfunc,erlang,get_module_info,1}}.


{function, module_info, 1, 94}.
  {label,93}.
    {line,[]}.
    {func_info,{atom,m25_monitor},{atom,module_info},1}.
  {label,94}.
    {move,{x,0},{x,1}}.
    {move,{atom,m25_monitor},{x,0}}.
    {call_ext_only,2,{extfunc,erlang,get_module_info,2}}.

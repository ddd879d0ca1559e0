{module, beamctl_helper}.  %% version = 0

{exports, [{ask,3},{call,3},{module_info,0},{module_info,1}]}.

{attributes, []}.

{labels, 32}.


{function, call, 3, 2}.
  {label,1}.
    {line,[{location,"beamctl_helper.erl",8}]}.
    {func_info,{atom,beamctl_helper},{atom,call},3}.
  {label,2}.
    {allocate,1,3}.
    {'try',{y,0},{f,3}}.
    {swap,{x,1},{x,2}}.
    {swap,{x,0},{x,1}}.
    {line,[{location,"beamctl_helper.erl",9}]}.
    {call,3,{f,17}}. % apply_to/3
    {test_heap,3,1}.
    {put_tuple2,{x,0},{list,[{atom,returned},{x,0}]}}.
    {try_end,{y,0}}.
    {jump,{f,4}}.
  {label,3}.
    {try_case,{y,0}}.
    {test_heap,3,2}.
    {put_tuple2,{x,0},{list,[{x,0},{x,1}]}}.
  {label,4}.
    {line,[{scope,[0,1]},{location,"beamctl_helper.erl",9}]}.
    {call_ext_last,1,{extfunc,erlang,exit,1},1}.


{function, ask, 3, 6}.
  {label,5}.
    {line,[{location,"beamctl_helper.erl",13}]}.
    {func_info,{atom,beamctl_helper},{atom,ask},3}.
  {label,6}.
    {allocate,3,3}.
    {move,{x,2},{y,0}}.
    {move,{x,0},{y,1}}.
    {bif,self,{f,0},[],{x,0}}.
    {'try',{y,2},{f,9}}.
    {swap,{x,0},{x,1}}.
    {line,[{location,"beamctl_helper.erl",14}]}.
    {call,2,{f,12}}. % with_self/2
    {move,{x,0},{x,1}}.
    {move,{y,1},{x,0}}.
    {init_yregs,{list,[{y,1}]}}.
    send.
    {try_end,{y,2}}.
  {label,7}.
    {loop_rec,{f,8},{x,0}}.
    {test_heap,3,1}.
    remove_message.
    {put_tuple2,{x,0},{list,[{atom,returned},{x,0}]}}.
    {jump,{f,10}}.
  {label,8}.
    {wait_timeout,{f,7},{y,0}}.
    timeout.
    {move,{atom,timeout},{x,0}}.
    {jump,{f,10}}.
  {label,9}.
    {try_case,{y,2}}.
    {test_heap,3,2}.
    {put_tuple2,{x,0},{list,[{x,0},{x,1}]}}.
  {label,10}.
    {line,[{scope,[0,1]},{location,"beamctl_helper.erl",14}]}.
    {call_ext_last,1,{extfunc,erlang,exit,1},3}.


{function, with_self, 2, 12}.
  {label,11}.
    {line,[{location,"beamctl_helper.erl",20}]}.
    {func_info,{atom,beamctl_helper},{atom,with_self},2}.
  {label,12}.
    {test,is_nonempty_list,{f,13},[{x,0}]}.
    {allocate,2,2}.
    {move,{x,1},{y,1}}.
    {get_list,{x,0},{x,0},{y,0}}.
    {line,[{location,"beamctl_helper.erl",21}]}.
    {call,2,{f,12}}. % with_self/2
    {move,{y,0},{x,2}}.
    {move,{y,1},{x,1}}.
    {move,{x,0},{y,1}}.
    {trim,1,1}.
    {move,{x,2},{x,0}}.
    {call,2,{f,12}}. % with_self/2
    {test_heap,2,1}.
    {put_list,{y,0},{x,0},{x,0}}.
    {deallocate,1}.
    return.
  {label,13}.
    {test,is_eq_exact,{f,14},[{x,0},{atom,'$self'}]}.
    {move,{x,1},{x,0}}.
    return.
  {label,14}.
    {test,is_tuple,{f,15},[{x,0}]}.
    {allocate,1,2}.
    {move,{x,1},{y,0}}.
    {line,[{location,"beamctl_helper.erl",22}]}.
    {call_ext,1,{extfunc,erlang,tuple_to_list,1}}.
    {move,{y,0},{x,1}}.
    {trim,1,0}.
    {call,2,{f,12}}. % with_self/2
    {call_ext_last,1,{extfunc,erlang,list_to_tuple,1},0}.
  {label,15}.
    return.


{function, apply_to, 3, 17}.
  {label,16}.
    {line,[{location,"beamctl_helper.erl",26}]}.
    {func_info,{atom,beamctl_helper},{atom,apply_to},3}.
  {label,17}.
    {test,is_nonempty_list,{f,27},[{x,0}]}.
    {get_list,{x,0},{x,3},{x,4}}.
    {test,is_nonempty_list,{f,26},[{x,4}]}.
    {get_list,{x,4},{x,5},{x,4}}.
    {test,is_nonempty_list,{f,25},[{x,4}]}.
    {get_list,{x,4},{x,6},{x,4}}.
    {test,is_nonempty_list,{f,24},[{x,4}]}.
    {get_list,{x,4},{x,7},{x,4}}.
    {test,is_nonempty_list,{f,23},[{x,4}]}.
    {get_list,{x,4},{x,8},{x,4}}.
    {test,is_nonempty_list,{f,22},[{x,4}]}.
    {get_list,{x,4},{x,9},{x,4}}.
    {test,is_nonempty_list,{f,21},[{x,4}]}.
    {get_list,{x,4},{x,10},{x,4}}.
    {test,is_nonempty_list,{f,20},[{x,4}]}.
    {get_list,{x,4},{x,11},{x,4}}.
    {test,is_nonempty_list,{f,19},[{x,4}]}.
    {get_list,{x,4},{x,12},{x,4}}.
    {test,is_nonempty_list,{f,18},[{x,4}]}.
    {get_list,{x,4},{x,13},{x,4}}.
    {test,is_nil,{f,16},[{x,4}]}.
    {allocate,0,14}.
    {move,{x,8},{x,4}}.
    {move,{x,12},{x,8}}.
    {move,{x,3},{x,0}}.
    {move,{x,7},{x,3}}.
    {move,{x,11},{x,7}}.
    {move,{x,2},{x,11}}.
    {move,{x,6},{x,2}}.
    {move,{x,10},{x,6}}.
    {move,{x,1},{x,10}}.
    {move,{x,5},{x,1}}.
    {move,{x,9},{x,5}}.
    {move,{x,13},{x,9}}.
    {line,[{location,"beamctl_helper.erl",36}]}.
    {apply_last,10,0}.
  {label,18}.
    {test,is_nil,{f,16},[{x,4}]}.
    {allocate,0,13}.
    {move,{x,8},{x,4}}.
    {move,{x,12},{x,8}}.
    {swap,{x,5},{x,1}}.
    {swap,{x,9},{x,5}}.
    {swap,{x,6},{x,2}}.
    {swap,{x,10},{x,6}}.
    {move,{x,3},{x,0}}.
    {move,{x,7},{x,3}}.
    {move,{x,11},{x,7}}.
    {line,[{location,"beamctl_helper.erl",35}]}.
    {apply_last,9,0}.
  {label,19}.
    {test,is_nil,{f,16},[{x,4}]}.
    {allocate,0,12}.
    {move,{x,8},{x,4}}.
    {move,{x,1},{x,8}}.
    {move,{x,5},{x,1}}.
    {move,{x,9},{x,5}}.
    {move,{x,2},{x,9}}.
    {move,{x,6},{x,2}}.
    {move,{x,10},{x,6}}.
    {move,{x,3},{x,0}}.
    {move,{x,7},{x,3}}.
    {move,{x,11},{x,7}}.
    {line,[{location,"beamctl_helper.erl",34}]}.
    {apply_last,8,0}.
  {label,20}.
    {test,is_nil,{f,16},[{x,4}]}.
    {allocate,0,11}.
    {move,{x,8},{x,4}}.
    {move,{x,2},{x,8}}.
    {move,{x,6},{x,2}}.
    {move,{x,10},{x,6}}.
    {move,{x,3},{x,0}}.
    {move,{x,7},{x,3}}.
    {move,{x,1},{x,7}}.
    {move,{x,5},{x,1}}.
    {move,{x,9},{x,5}}.
    {line,[{location,"beamctl_helper.erl",33}]}.
    {apply_last,7,0}.
  {label,21}.
    {test,is_nil,{f,16},[{x,4}]}.
    {allocate,0,10}.
    {move,{x,8},{x,4}}.
    {move,{x,3},{x,0}}.
    {move,{x,7},{x,3}}.
    {move,{x,2},{x,7}}.
    {move,{x,6},{x,2}}.
    {move,{x,1},{x,6}}.
    {move,{x,5},{x,1}}.
    {move,{x,9},{x,5}}.
    {line,[{location,"beamctl_helper.erl",32}]}.
    {apply_last,6,0}.
  {label,22}.
    {test,is_nil,{f,16},[{x,4}]}.
    {allocate,0,9}.
    {move,{x,8},{x,4}}.
    {swap,{x,5},{x,1}}.
    {swap,{x,6},{x,2}}.
    {move,{x,3},{x,0}}.
    {move,{x,7},{x,3}}.
    {line,[{location,"beamctl_helper.erl",31}]}.
    {apply_last,5,0}.
  {label,23}.
    {test,is_nil,{f,16},[{x,4}]}.
    {allocate,0,8}.
    {move,{x,1},{x,4}}.
    {move,{x,5},{x,1}}.
    {move,{x,2},{x,5}}.
    {move,{x,6},{x,2}}.
    {move,{x,3},{x,0}}.
    {move,{x,7},{x,3}}.
    {line,[{location,"beamctl_helper.erl",30}]}.
    {apply_last,4,0}.
  {label,24}.
    {test,is_nil,{f,16},[{x,4}]}.
    {allocate,0,7}.
    {move,{x,2},{x,4}}.
    {move,{x,6},{x,2}}.
    {move,{x,3},{x,0}}.
    {move,{x,1},{x,3}}.
    {move,{x,5},{x,1}}.
    {line,[{location,"beamctl_helper.erl",29}]}.
    {apply_last,3,0}.
  {label,25}.
    {test,is_nil,{f,16},[{x,4}]}.
    {allocate,0,6}.
    {move,{x,3},{x,0}}.
    {move,{x,2},{x,3}}.
    {move,{x,1},{x,2}}.
    {move,{x,5},{x,1}}.
    {line,[{location,"beamctl_helper.erl",28}]}.
    {apply_last,2,0}.
  {label,26}.
    {test,is_nil,{f,16},[{x,4}]}.
    {allocate,0,4}.
    {move,{x,3},{x,0}}.
    {line,[{location,"beamctl_helper.erl",27}]}.
    {apply_last,1,0}.
  {label,27}.
    {test,is_nil,{f,16},[{x,0}]}.
    {allocate,0,3}.
    {move,{x,1},{x,0}}.
    {move,{x,2},{x,1}}.
    {line,[{location,"beamctl_helper.erl",26}]}.
    {apply_last,0,0}.


{function, module_info, 0, 29}.
  {label,28}.
    {line,[]}.
    {func_info,{atom,beamctl_helper},{atom,module_info},0}.
  {label,29}.
    {move,{atom,beamctl_helper},{x,0}}.
    {call_ext_only,1,{extfunc,erlang,get_module_info,1}}.


{function, module_info, 1, 31}.
  {label,30}.
    {line,[]}.
    {func_info,{atom,beamctl_helper},{atom,module_info},1}.
  {label,31}.
    {move,{x,0},{x,1}}.
    {move,{atom,beamctl_helper},{x,0}}.
    {call_ext_only,2,{extfunc,erlang,get_module_info,2}}.

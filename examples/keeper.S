{module, keeper}.  %% version = 0

{exports, [{main,1},{module_info,0},{module_info,1},{work,1}]}.

{attributes, []}.

{labels, 16}.


{function, main, 1, 2}.
  {label,1}.
    {line,[{location,"keeper.erl",6}]}.
    {func_info,{atom,keeper},{atom,main},1}.
  {label,2}.
    {move,{integer,0},{x,1}}.
    {call_only,2,{f,4}}. % keep/2


{function, keep, 2, 4}.
  {label,3}.
    {line,[{location,"keeper.erl",8}]}.
    {func_info,{atom,keeper},{atom,keep},2}.
  {label,4}.
    {'%',{var_info,{x,1},[{type,{t_integer,any}}]}}.
    {allocate_heap,4,2,2}.
    {init_yregs,{list,[{y,0},{y,1},{y,2}]}}.
    {move,{x,1},{y,3}}.
    {put_list,{x,0},nil,{x,2}}.
    {move,{atom,work},{x,1}}.
    {move,{atom,keeper},{x,0}}.
    {line,[{location,"keeper.erl",9}]}.
    {call_ext,3,{extfunc,erlang,spawn,3}}.
    {recv_marker_reserve,{y,2}}.
    {move,{x,0},{y,1}}.
    {move,{x,0},{x,1}}.
    {move,{atom,process},{x,0}}.
    {line,[{location,"keeper.erl",10}]}.
    {call_ext,2,{extfunc,erlang,monitor,2}}.
    {move,{x,0},{y,0}}.
    {recv_marker_bind,{y,2},{x,0}}.
    {recv_marker_use,{x,0}}.
  {label,5}.
    {loop_rec,{f,8},{x,0}}.
    {test,is_tagged_tuple,{f,7},[{x,0},5,{atom,'DOWN'}]}.
    {get_tuple_element,{x,0},1,{x,1}}.
    {get_tuple_element,{x,0},2,{x,2}}.
    {get_tuple_element,{x,0},3,{x,3}}.
    {get_tuple_element,{x,0},4,{x,0}}.
    {test,is_eq_exact,{f,7},[{x,2},{atom,process}]}.
    {test,is_tuple,{f,6},[{x,0}]}.
    {test,is_tagged_tuple,
          {f,7},
          [{tr,{x,0},{t_tuple,0,false,#{}}},2,{atom,failed}]}.
    {test,is_eq_exact,{f,7},[{x,1},{tr,{y,0},reference}]}.
    {test,is_eq_exact,{f,7},[{x,3},{tr,{y,1},pid}]}.
    {recv_marker_clear,{y,0}}.
    remove_message.
    {line,[{location,"keeper.erl",13}]}.
    {gc_bif,'+',{f,0},1,[{tr,{y,3},{t_integer,any}},{integer,1}],{x,1}}.
    {get_tuple_element,{x,0},1,{x,0}}.
    {call_last,2,{f,4},4}. % keep/2
  {label,6}.
    {test,is_eq_exact,{f,7},[{x,0},{atom,normal}]}.
    {test,is_eq_exact,{f,7},[{x,1},{tr,{y,0},reference}]}.
    {test,is_eq_exact,{f,7},[{x,3},{tr,{y,1},pid}]}.
    {test_heap,3,0}.
    {recv_marker_clear,{y,0}}.
    remove_message.
    {put_tuple2,{x,0},{list,[{atom,ended},{y,3}]}}.
    {deallocate,4}.
    return.
  {label,7}.
    {loop_rec_end,{f,5}}.
  {label,8}.
    {wait,{f,5}}.


{function, work, 1, 10}.
  {label,9}.
    {line,[{location,"keeper.erl",16}]}.
    {func_info,{atom,keeper},{atom,work},1}.
  {label,10}.
    {test,is_eq_exact,{f,11},[{x,0},{integer,0}]}.
    {move,{atom,ended},{x,0}}.
    return.
  {label,11}.
    {line,[{location,"keeper.erl",17}]}.
    {gc_bif,'-',{f,0},1,[{x,0},{integer,1}],{x,0}}.
    {test_heap,3,1}.
    {put_tuple2,{x,0},{list,[{atom,failed},{x,0}]}}.
    {call_ext_only,1,{extfunc,erlang,exit,1}}.


{function, module_info, 0, 13}.
  {label,12}.
    {line,[]}.
    {func_info,{atom,keeper},{atom,module_info},0}.
  {label,13}.
    {move,{atom,keeper},{x,0}}.
    {call_ext_only,1,{extfunc,erlang,get_module_info,1}}.


{function, module_info, 1, 15}.
  {label,14}.
    {line,[]}.
    {func_info,{atom,keeper},{atom,module_info},1}.
  {label,15}.
    {move,{x,0},{x,1}}.
    {move,{atom,keeper},{x,0}}.
    {call_ext_only,2,{extfunc,erlang,get_module_info,2}}.

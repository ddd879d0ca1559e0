{module, counter}.  %% version = 0

{exports, [{loop,2},{main,1},{module_info,0},{module_info,1}]}.

{attributes, []}.

{labels, 19}.


{function, main, 1, 2}.
  {label,1}.
    {line,[{location,"counter.erl",5}]}.
    {func_info,{atom,counter},{atom,main},1}.
  {label,2}.
    {allocate_heap,1,2,1}.
    {move,{x,0},{y,0}}.
    {bif,self,{f,0},[],{x,0}}.
    {put_list,{x,0},{literal,[0]},{x,2}}.
    {move,{atom,loop},{x,1}}.
    {move,{atom,counter},{x,0}}.
    {line,[{location,"counter.erl",6}]}.
    {call_ext,3,{extfunc,erlang,spawn,3}}.
    {move,{y,0},{x,1}}.
    {move,{x,0},{y,0}}.
    {line,[{location,"counter.erl",7}]}.
    {call,2,{f,7}}. % count/2
    {'%',{var_info,{x,0},[{type,{t_atom,[ok]}}]}}.
    {move,{atom,total},{x,1}}.
    {move,{y,0},{x,0}}.
    {init_yregs,{list,[{y,0}]}}.
    {line,[{location,"counter.erl",8}]}.
    send.
  {label,3}.
    {loop_rec,{f,5},{x,0}}.
    {test,is_tagged_tuple,{f,4},[{x,0},2,{atom,total}]}.
    {get_tuple_element,{x,0},1,{x,0}}.
    remove_message.
    {deallocate,1}.
    return.
  {label,4}.
    {loop_rec_end,{f,3}}.
  {label,5}.
    {wait_timeout,{f,3},{integer,1000}}.
    timeout.
    {move,{atom,timeout},{x,0}}.
    {deallocate,1}.
    return.


{function, count, 2, 7}.
  {label,6}.
    {line,[{location,"counter.erl",11}]}.
    {func_info,{atom,counter},{atom,count},2}.
  {label,7}.
    {'%',{var_info,{x,0},[{type,pid}]}}.
    {test,is_eq_exact,{f,8},[{x,1},{integer,0}]}.
    {move,{atom,ok},{x,0}}.
    return.
  {label,8}.
    {allocate_heap,2,3,2}.
    {move,{x,1},{y,0}}.
    {move,{x,0},{y,1}}.
    {put_tuple2,{x,1},{list,[{atom,add},{x,1}]}}.
    {line,[{location,"counter.erl",12}]}.
    send.
    {gc_bif,'-',{f,0},0,[{y,0},{integer,1}],{x,1}}.
    {move,{y,1},{x,0}}.
    {call_last,2,{f,7},2}. % count/2


{function, loop, 2, 10}.
  {label,9}.
    {line,[{location,"counter.erl",14}]}.
    {func_info,{atom,counter},{atom,loop},2}.
  {label,10}.
    {allocate,2,2}.
    {move,{x,1},{y,0}}.
    {move,{x,0},{y,1}}.
  {label,11}.
    {loop_rec,{f,14},{x,0}}.
    {test,is_tuple,{f,12},[{x,0}]}.
    {test,is_tagged_tuple,
          {f,13},
          [{tr,{x,0},{t_tuple,0,false,#{}}},2,{atom,add}]}.
    {get_tuple_element,{x,0},1,{x,0}}.
    remove_message.
    {line,[{location,"counter.erl",16}]}.
    {gc_bif,'+',{f,0},1,[{y,0},{x,0}],{x,1}}.
    {move,{y,1},{x,0}}.
    {call_last,2,{f,10},2}. % loop/2
  {label,12}.
    {test,is_eq_exact,{f,13},[{x,0},{atom,total}]}.
    {test_heap,3,0}.
    remove_message.
    {put_tuple2,{x,1},{list,[{atom,total},{y,0}]}}.
    {move,{y,1},{x,0}}.
    {line,[{location,"counter.erl",17}]}.
    send.
    {deallocate,2}.
    return.
  {label,13}.
    {loop_rec_end,{f,11}}.
  {label,14}.
    {wait,{f,11}}.


{function, module_info, 0, 16}.
  {label,15}.
    {line,[]}.
    {func_info,{atom,counter},{atom,module_info},0}.
  {label,16}.
    {move,{atom,counter},{x,0}}.
    {call_ext_only,1,{extfunc,erlang,get_module_info,1}}.


{function, module_info, 1, 18}.
  {label,17}.
    {line,[]}.
    {func_info,{atom,counter},{atom,module_info},1}.
  {label,18}.
    {move,{x,0},{x,1}}.
    {move,{atom,counter},{x,0}}.
    {call_ext_only,2,{extfunc,erlang,get_module_info,2}}.

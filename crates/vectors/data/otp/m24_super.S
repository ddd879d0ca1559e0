{module, m24_super}.  %% version = 0

{exports, [{module_info,0},
           {module_info,1},
           {run,2},
           {sleeper,1},
           {stop,1},
           {worker,3}]}.

{attributes, []}.

{labels, 63}.


{function, run, 2, 2}.
  {label,1}.
    {line,[{location,"m24_super.erl",11}]}.
    {func_info,{atom,m24_super},{atom,run},2}.
  {label,2}.
    {allocate,1,2}.
    {move,{x,1},{y,0}}.
    {call,1,{f,4}}. % start_all/1
    {'%',{var_info,{x,0},
                   [{type,{t_list,{t_tuple,3,true,#{1 => reference,2 => pid}},
                                  nil}}]}}.
    {move,{y,0},{x,2}}.
    {move,nil,{x,3}}.
    {move,{integer,0},{x,1}}.
    {call_last,4,{f,15},1}. % loop/4


{function, start_all, 1, 4}.
  {label,3}.
    {line,[{location,"m24_super.erl",12}]}.
    {func_info,{atom,m24_super},{atom,start_all},1}.
  {label,4}.
    {test,is_nonempty_list,{f,5},[{x,0}]}.
    {get_list,{x,0},{x,1},{x,2}}.
    {test,is_tuple,{f,3},[{x,1}]}.
    {test,test_arity,{f,3},[{x,1},2]}.
    {allocate,1,3}.
    {move,{x,2},{y,0}}.
    {get_tuple_element,{x,1},0,{x,0}}.
    {get_tuple_element,{x,1},1,{x,1}}.
    {line,[{location,"m24_super.erl",13}]}.
    {call,2,{f,7}}. % start/2
    {'%',{var_info,{x,0},
                   [{type,{t_tuple,3,true,#{1 => reference,2 => pid}}}]}}.
    {swap,{y,0},{x,0}}.
    {call,1,{f,4}}. % start_all/1
    {'%',{var_info,{x,0},
                   [{type,{t_list,{t_tuple,3,true,#{1 => reference,2 => pid}},
                                  nil}}]}}.
    {test_heap,2,1}.
    {put_list,{y,0},{x,0},{x,0}}.
    {deallocate,1}.
    return.
  {label,5}.
    {test,is_nil,{f,3},[{x,0}]}.
    return.


{function, start, 2, 7}.
  {label,6}.
    {line,[{location,"m24_super.erl",14}]}.
    {func_info,{atom,m24_super},{atom,start},2}.
  {label,7}.
    {allocate_heap,2,6,2}.
    {init_yregs,{list,[{y,0}]}}.
    {move,{x,0},{y,1}}.
    {bif,self,{f,0},[],{x,0}}.
    {put_list,{x,1},nil,{x,1}}.
    {put_list,{y,1},{x,1},{x,1}}.
    {put_list,{x,0},{x,1},{x,2}}.
    {move,{atom,worker},{x,1}}.
    {move,{atom,m24_super},{x,0}}.
    {line,[{location,"m24_super.erl",15}]}.
    {call_ext,3,{extfunc,erlang,spawn,3}}.
    {move,{x,0},{y,0}}.
    {move,{x,0},{x,1}}.
    {move,{atom,process},{x,0}}.
    {line,[{location,"m24_super.erl",16}]}.
    {call_ext,2,{extfunc,erlang,monitor,2}}.
    {test_heap,4,1}.
    {put_tuple2,{x,0},{list,[{x,0},{y,0},{y,1}]}}.
    {deallocate,2}.
    return.


{function, worker, 3, 9}.
  {label,8}.
    {line,[{location,"m24_super.erl",17}]}.
    {func_info,{atom,m24_super},{atom,worker},3}.
  {label,9}.
    {test,is_eq_exact,{f,13},[{x,2},{integer,0}]}.
    {allocate_heap,1,3,2}.
    {move,{x,1},{y,0}}.
    {put_tuple2,{x,1},{list,[{atom,done},{x,1}]}}.
    send.
  {label,10}.
    {loop_rec,{f,12},{x,0}}.
    {test,is_tagged_tuple,{f,11},[{x,0},2,{atom,ok}]}.
    {get_tuple_element,{x,0},1,{x,0}}.
    {test,is_eq_exact,{f,11},[{x,0},{y,0}]}.
    remove_message.
    {move,{y,0},{x,0}}.
    {deallocate,1}.
    return.
  {label,11}.
    {loop_rec_end,{f,10}}.
  {label,12}.
    {wait,{f,10}}.
  {label,13}.
    {line,[{location,"m24_super.erl",18}]}.
    {gc_bif,'-',{f,0},3,[{x,2},{integer,1}],{x,0}}.
    {test_heap,4,2}.
    {put_tuple2,{x,0},{list,[{atom,again},{x,1},{x,0}]}}.
    {call_ext_only,1,{extfunc,erlang,exit,1}}.


{function, loop, 4, 15}.
  {label,14}.
    {line,[{location,"m24_super.erl",20}]}.
    {func_info,{atom,m24_super},{atom,loop},4}.
  {label,15}.
    {'%',{var_info,{x,0},
                   [{type,{t_list,{t_tuple,3,true,#{1 => reference,2 => pid}},
                                  nil}}]}}.
    {'%',{var_info,{x,1},[{type,{t_integer,any}}]}}.
    {'%',{var_info,{x,3},[{type,{t_list,any,nil}}]}}.
    {test,is_nil,
          {f,16},
          [{tr,{x,0},
               {t_list,{t_tuple,3,true,#{1 => reference,2 => pid}},nil}}]}.
    {test_heap,4,4}.
    {put_tuple2,{x,0},{list,[{atom,ended},{x,1},{x,3}]}}.
    return.
  {label,16}.
    {allocate,7,4}.
    {init_yregs,{list,[{y,0},{y,1},{y,2}]}}.
    {move,{x,3},{y,3}}.
    {move,{x,2},{y,4}}.
    {move,{x,1},{y,5}}.
    {move,{x,0},{y,6}}.
  {label,17}.
    {loop_rec,{f,21},{x,0}}.
    {test,is_tuple,{f,20},[{x,0}]}.
    {select_tuple_arity,{tr,{x,0},{t_tuple,0,false,#{}}},
                        {f,20},
                        {list,[2,{f,19},5,{f,18}]}}.
  {label,18}.
    {get_tuple_element,{x,0},0,{x,1}}.
    {get_tuple_element,{x,0},2,{x,2}}.
    {test,is_eq_exact,{f,20},[{x,1},{atom,'DOWN'}]}.
    {test,is_eq_exact,{f,20},[{x,2},{atom,process}]}.
    {move,{x,0},{y,2}}.
    remove_message.
    {get_tuple_element,{x,0},1,{y,1}}.
    {move,{y,6},{x,1}}.
    {move,{y,1},{x,0}}.
    {line,[{location,"m24_super.erl",28}]}.
    {call,2,{f,51}}. % of_ref/2
    {'%',{var_info,{x,0},
                   [{type,{t_tuple,3,true,#{1 => reference,2 => pid}}}]}}.
    {get_tuple_element,{x,0},0,{x,1}}.
    {get_tuple_element,{x,0},2,{y,0}}.
    {test,is_eq_exact,{f,22},[{tr,{x,1},reference},{y,1}]}.
    {get_tuple_element,{x,0},1,{x,1}}.
    {get_tuple_element,{y,2},3,{x,2}}.
    {test,is_eq_exact,{f,22},[{tr,{x,1},pid},{x,2}]}.
    {move,{y,6},{x,1}}.
    {move,{y,1},{x,0}}.
    {move,{y,0},{y,6}}.
    {trim,2,5}.
    {line,[{location,"m24_super.erl",29}]}.
    {call,2,{f,54}}. % without/2
    {'%',{var_info,{x,0},
                   [{type,{t_list,{t_tuple,3,true,#{1 => reference,2 => pid}},
                                  nil}}]}}.
    {get_tuple_element,{y,0},4,{x,1}}.
    {move,{y,2},{x,4}}.
    {move,{y,3},{x,3}}.
    {move,{x,0},{x,2}}.
    {move,{y,1},{x,5}}.
    {move,{x,1},{x,0}}.
    {move,{y,4},{x,1}}.
    {call_last,6,{f,24},5}. % down/6
  {label,19}.
    {get_tuple_element,{x,0},0,{x,1}}.
    {test,is_eq_exact,{f,20},[{x,1},{atom,done}]}.
    remove_message.
    {get_tuple_element,{x,0},1,{y,2}}.
    {move,{y,6},{x,1}}.
    {move,{y,2},{x,0}}.
    {line,[{location,"m24_super.erl",24}]}.
    {call,2,{f,48}}. % named/2
    {'%',{var_info,{x,0},
                   [{type,{t_tuple,3,true,#{1 => reference,2 => pid}}}]}}.
    {test_heap,3,1}.
    {put_tuple2,{x,1},{list,[{atom,ok},{y,2}]}}.
    {get_tuple_element,{x,0},1,{x,0}}.
    {trim,3,4}.
    {line,[{location,"m24_super.erl",25}]}.
    send.
    {move,{y,0},{x,3}}.
    {move,{y,1},{x,2}}.
    {move,{y,2},{x,1}}.
    {move,{y,3},{x,0}}.
    {call_last,4,{f,15},4}. % loop/4
  {label,20}.
    {loop_rec_end,{f,17}}.
  {label,21}.
    {wait,{f,17}}.
  {label,22}.
    {line,[{location,"m24_super.erl",28}]}.
    {badmatch,{x,0}}.


{function, down, 6, 24}.
  {label,23}.
    {line,[{location,"m24_super.erl",31}]}.
    {func_info,{atom,m24_super},{atom,down},6}.
  {label,24}.
    {'%',{var_info,{x,2},
                   [{type,{t_list,{t_tuple,3,true,#{1 => reference,2 => pid}},
                                  nil}}]}}.
    {'%',{var_info,{x,3},[{type,{t_integer,any}}]}}.
    {'%',{var_info,{x,5},[{type,{t_list,any,nil}}]}}.
    {test,is_tuple,{f,26},[{x,0}]}.
    {test,is_tagged_tuple,
          {f,23},
          [{tr,{x,0},{t_tuple,0,false,#{}}},3,{atom,again}]}.
    {get_tuple_element,{x,0},1,{x,6}}.
    {test,is_eq_exact,{f,23},[{x,1},{x,6}]}.
    {test,is_lt,{f,25},[{tr,{x,3},{t_integer,any}},{x,4}]}.
    {allocate,4,7}.
    {move,{x,5},{y,0}}.
    {move,{x,4},{y,1}}.
    {move,{x,3},{y,2}}.
    {move,{x,2},{y,3}}.
    {get_tuple_element,{x,0},2,{x,1}}.
    {move,{x,6},{x,0}}.
    {line,[{location,"m24_super.erl",33}]}.
    {call,2,{f,7}}. % start/2
    {'%',{var_info,{x,0},
                   [{type,{t_tuple,3,true,#{1 => reference,2 => pid}}}]}}.
    {gc_bif,'+',{f,0},1,[{tr,{y,2},{t_integer,any}},{integer,1}],{x,1}}.
    {test_heap,2,2}.
    {put_list,{x,0},{y,3},{x,0}}.
    {move,{y,0},{x,3}}.
    {move,{y,1},{x,2}}.
    {call_last,4,{f,15},4}. % loop/4
  {label,25}.
    {allocate,1,4}.
    {move,{x,3},{y,0}}.
    {move,{x,2},{x,0}}.
    {line,[{location,"m24_super.erl",34}]}.
    {call,1,{f,38}}. % shut/1
    {'%',
        {var_info,
            {x,0},
            [{type,
                 {t_list,
                     {t_tuple,2,true,#{2 => {t_atom,[false,true]}}},
                     nil}}]}}.
    {test_heap,3,0}.
    {put_tuple2,{x,0},{list,[{atom,given_up},{y,0}]}}.
    {deallocate,1}.
    return.
  {label,26}.
    {test,is_eq_exact,{f,23},[{x,0},{atom,normal}]}.
    {allocate,3,6}.
    {move,{x,4},{y,0}}.
    {move,{x,3},{y,1}}.
    {move,{x,2},{y,2}}.
    {move,{x,1},{x,0}}.
    {move,{x,5},{x,1}}.
    {line,[{location,"m24_super.erl",31}]}.
    {call,2,{f,57}}. % insert/2
    {'%',{var_info,{x,0},[{type,{t_cons,any,nil}}]}}.
    {move,{y,0},{x,2}}.
    {move,{y,1},{x,1}}.
    {move,{x,0},{x,3}}.
    {move,{y,2},{x,0}}.
    {call_last,4,{f,15},3}. % loop/4


{function, stop, 1, 28}.
  {label,27}.
    {line,[{location,"m24_super.erl",37}]}.
    {func_info,{atom,m24_super},{atom,stop},1}.
  {label,28}.
    {allocate,0,1}.
    {call,1,{f,30}}. % sleepers/1
    {'%',{var_info,{x,0},
                   [{type,{t_list,{t_tuple,3,true,#{1 => reference,2 => pid}},
                                  nil}}]}}.
    {call_last,1,{f,38},0}. % shut/1


{function, sleepers, 1, 30}.
  {label,29}.
    {line,[{location,"m24_super.erl",38}]}.
    {func_info,{atom,m24_super},{atom,sleepers},1}.
  {label,30}.
    {test,is_nonempty_list,{f,31},[{x,0}]}.
    {allocate_heap,3,2,1}.
    {init_yregs,{list,[{y,0}]}}.
    {get_list,{x,0},{y,2},{y,1}}.
    {put_list,{y,2},nil,{x,2}}.
    {move,{atom,sleeper},{x,1}}.
    {move,{atom,m24_super},{x,0}}.
    {line,[{location,"m24_super.erl",40}]}.
    {call_ext,3,{extfunc,erlang,spawn,3}}.
    {move,{x,0},{y,0}}.
    {move,{x,0},{x,1}}.
    {move,{atom,process},{x,0}}.
    {line,[{location,"m24_super.erl",41}]}.
    {call_ext,2,{extfunc,erlang,monitor,2}}.
    {swap,{y,1},{x,0}}.
    {call,1,{f,30}}. % sleepers/1
    {'%',{var_info,{x,0},
                   [{type,{t_list,{t_tuple,3,true,#{1 => reference,2 => pid}},
                                  nil}}]}}.
    {test_heap,6,1}.
    {put_tuple2,{x,1},{list,[{y,1},{y,0},{y,2}]}}.
    {put_list,{x,1},{x,0},{x,0}}.
    {deallocate,3}.
    return.
  {label,31}.
    {test,is_nil,{f,29},[{x,0}]}.
    return.


{function, sleeper, 1, 33}.
  {label,32}.
    {line,[{location,"m24_super.erl",42}]}.
    {func_info,{atom,m24_super},{atom,sleeper},1}.
  {label,33}.
    {allocate,1,1}.
    {move,{x,0},{y,0}}.
  {label,34}.
    {loop_rec,{f,36},{x,0}}.
    {test,is_eq_exact,{f,35},[{x,0},{y,0}]}.
    remove_message.
    {move,{y,0},{x,0}}.
    {deallocate,1}.
    return.
  {label,35}.
    {loop_rec_end,{f,34}}.
  {label,36}.
    {wait,{f,34}}.


{function, shut, 1, 38}.
  {label,37}.
    {line,[{location,"m24_super.erl",43}]}.
    {func_info,{atom,m24_super},{atom,shut},1}.
  {label,38}.
    {'%',{var_info,{x,0},
                   [{type,{t_list,{t_tuple,3,true,#{1 => reference,2 => pid}},
                                  nil}}]}}.
    {test,is_nonempty_list,{f,42},[{x,0}]}.
    {allocate,4,1}.
    {init_yregs,{list,[{y,0}]}}.
    {get_list,{x,0},{y,3},{y,2}}.
    {get_tuple_element,{y,3},1,{y,1}}.
    {move,{atom,shutdown},{x,1}}.
    {move,{y,1},{x,0}}.
    {line,[{location,"m24_super.erl",45}]}.
    {call_ext,2,{extfunc,erlang,exit,2}}.
    {get_tuple_element,{y,3},0,{y,0}}.
  {label,39}.
    {loop_rec,{f,41},{x,0}}.
    {test,is_tagged_tuple,{f,40},[{x,0},5,{atom,'DOWN'}]}.
    {get_tuple_element,{x,0},1,{x,1}}.
    {get_tuple_element,{x,0},2,{x,2}}.
    {get_tuple_element,{x,0},3,{x,3}}.
    {test,is_eq_exact,{f,40},[{x,2},{atom,process}]}.
    {test,is_eq_exact,{f,40},[{x,1},{tr,{y,0},reference}]}.
    {test,is_eq_exact,{f,40},[{x,3},{tr,{y,1},pid}]}.
    remove_message.
    {get_tuple_element,{x,0},4,{x,0}}.
    {trim,2,2}.
    {line,[{location,"m24_super.erl",46}]}.
    {call,1,{f,44}}. % is_end/1
    {'%',{var_info,{x,0},[{type,{t_atom,[false,true]}}]}}.
    {swap,{y,0},{x,0}}.
    {call,1,{f,38}}. % shut/1
    {'%',
        {var_info,
            {x,0},
            [{type,
                 {t_list,
                     {t_tuple,2,true,#{2 => {t_atom,[false,true]}}},
                     nil}}]}}.
    {test_heap,5,1}.
    {get_tuple_element,{y,1},2,{x,1}}.
    {put_tuple2,{x,1},{list,[{x,1},{y,0}]}}.
    {put_list,{x,1},{x,0},{x,0}}.
    {deallocate,2}.
    return.
  {label,40}.
    {loop_rec_end,{f,39}}.
  {label,41}.
    {wait,{f,39}}.
  {label,42}.
    return.


{function, is_end, 1, 44}.
  {label,43}.
    {line,[{location,"m24_super.erl",47}]}.
    {func_info,{atom,m24_super},{atom,is_end},1}.
  {label,44}.
    {test,is_tuple,{f,46},[{x,0}]}.
    {test,is_tagged_tuple,
          {f,45},
          [{tr,{x,0},{t_tuple,0,false,#{}}},3,{atom,again}]}.
    {move,{atom,true},{x,0}}.
    return.
  {label,45}.
    {move,{atom,false},{x,0}}.
    return.
  {label,46}.
    {bif,'=:=',{f,0},[{x,0},{atom,shutdown}],{x,0}}.
    return.


{function, named, 2, 48}.
  {label,47}.
    {line,[{location,"m24_super.erl",51}]}.
    {func_info,{atom,m24_super},{atom,named},2}.
  {label,48}.
    {'%',{var_info,{x,1},
                   [{type,{t_list,{t_tuple,3,true,#{1 => reference,2 => pid}},
                                  nil}}]}}.
    {test,is_nonempty_list,{f,47},[{x,1}]}.
    {get_list,{x,1},{x,2},{x,1}}.
    {get_tuple_element,{x,2},2,{x,3}}.
    {test,is_eq_exact,{f,49},[{x,3},{x,0}]}.
    {move,{x,2},{x,0}}.
    return.
  {label,49}.
    {call_only,2,{f,48}}. % named/2


{function, of_ref, 2, 51}.
  {label,50}.
    {line,[{location,"m24_super.erl",53}]}.
    {func_info,{atom,m24_super},{atom,of_ref},2}.
  {label,51}.
    {'%',{var_info,{x,1},
                   [{type,{t_list,{t_tuple,3,true,#{1 => reference,2 => pid}},
                                  nil}}]}}.
    {test,is_nonempty_list,{f,50},[{x,1}]}.
    {get_list,{x,1},{x,2},{x,1}}.
    {get_tuple_element,{x,2},0,{x,3}}.
    {test,is_eq_exact,{f,52},[{tr,{x,3},reference},{x,0}]}.
    {move,{x,2},{x,0}}.
    return.
  {label,52}.
    {call_only,2,{f,51}}. % of_ref/2


{function, without, 2, 54}.
  {label,53}.
    {line,[{location,"m24_super.erl",55}]}.
    {func_info,{atom,m24_super},{atom,without},2}.
  {label,54}.
    {'%',{var_info,{x,0},[{type,reference}]}}.
    {'%',{var_info,{x,1},
                   [{type,{t_list,{t_tuple,3,true,#{1 => reference,2 => pid}},
                                  nil}}]}}.
    {test,is_nonempty_list,{f,53},[{x,1}]}.
    {get_list,{x,1},{x,2},{x,1}}.
    {get_tuple_element,{x,2},0,{x,3}}.
    {test,is_eq_exact,{f,55},[{tr,{x,3},reference},{tr,{x,0},reference}]}.
    {move,{x,1},{x,0}}.
    return.
  {label,55}.
    {allocate,1,3}.
    {move,{x,2},{y,0}}.
    {line,[{location,"m24_super.erl",56}]}.
    {call,2,{f,54}}. % without/2
    {'%',{var_info,{x,0},
                   [{type,{t_list,{t_tuple,3,true,#{1 => reference,2 => pid}},
                                  nil}}]}}.
    {test_heap,2,1}.
    {put_list,{y,0},{x,0},{x,0}}.
    {deallocate,1}.
    return.


{function, insert, 2, 57}.
  {label,56}.
    {line,[{location,"m24_super.erl",57}]}.
    {func_info,{atom,m24_super},{atom,insert},2}.
  {label,57}.
    {'%',{var_info,{x,1},[{type,{t_list,any,nil}}]}}.
    {test,is_nonempty_list,{f,58},[{x,1}]}.
    {get_list,{x,1},{x,2},{x,3}}.
    {test,is_lt,{f,58},[{x,2},{x,0}]}.
    {allocate,1,4}.
    {move,{x,2},{y,0}}.
    {move,{x,3},{x,1}}.
    {call,2,{f,57}}. % insert/2
    {'%',{var_info,{x,0},[{type,{t_cons,any,nil}}]}}.
    {test_heap,2,1}.
    {put_list,{y,0},{x,0},{x,0}}.
    {deallocate,1}.
    return.
  {label,58}.
    {test_heap,2,2}.
    {put_list,{x,0},{x,1},{x,0}}.
    return.


{function, module_info, 0, 60}.
  {label,59}.
    {line,[]}.
    {func_info,{atom,m24_super},{atom,module_info},0}.
  {label,60}.
    {move,{atom,m24_super},{x,0}}.
    {call_ext_only,1,{extfunc,erlang,get_module_info,1}}.


{function, module_info, 1, 62}.
  {label,61}.
    {line,[]}.
    {func_info,{atom,m24_super},{atom,module_info},1}.
  {label,62}.
    {move,{x,0},{x,1}}.
    {move,{atom,m24_super},{x,0}}.
    {call_ext_only,2,{extfunc,erlang,get_module_info,2}}.

{module, m23_call}.  %% version = 0

{exports, [{calls,1},
           {crashed,0},
           {crowded,1},
           {dead,1},
           {module_info,0},
           {module_info,1},
           {noproc,0},
           {server,1},
           {silent,1},
           {stopped,0}]}.

{attributes, []}.

{labels, 57}.


{function, call, 2, 2}.
  {label,1}.
    {line,[{location,"m23_call.erl",13}]}.
    {func_info,{atom,m23_call},{atom,call},2}.
  {label,2}.
    {'%',{var_info,{x,0},[{type,pid}]}}.
    {'%',
        {var_info,
            {x,1},
            [{type,
                 {t_union,
                     {t_atom,[stop]},
                     none,none,
                     [{{2,{t_atom,[add]}},
                       {t_tuple,2,true,#{1 => {t_atom,[add]}}}},
                      {{2,{t_atom,[leave]}},
                       {t_tuple,2,true,#{1 => {t_atom,[leave]}}}}],
                     none}}]}}.
    {move,{integer,5000},{x,2}}.
    {call_only,3,{f,4}}. % call/3


{function, call, 3, 4}.
  {label,3}.
    {line,[{location,"m23_call.erl",14}]}.
    {func_info,{atom,m23_call},{atom,call},3}.
  {label,4}.
    {'%',{var_info,{x,0},[{type,pid}]}}.
    {'%',
        {var_info,
            {x,1},
            [{type,
                 {t_union,
                     {t_atom,[silent,stop]},
                     none,none,
                     [{{2,{t_atom,[add]}},
                       {t_tuple,2,true,#{1 => {t_atom,[add]}}}},
                      {{2,{t_atom,[leave]}},
                       {t_tuple,2,true,#{1 => {t_atom,[leave]}}}}],
                     none}}]}}.
    {allocate,4,3}.
    {move,{x,2},{y,1}}.
    {move,{x,1},{y,2}}.
    {move,{x,0},{y,3}}.
    {recv_marker_reserve,{y,0}}.
    {move,{x,0},{x,1}}.
    {move,{atom,process},{x,0}}.
    {line,[{location,"m23_call.erl",15}]}.
    {call_ext,2,{extfunc,erlang,monitor,2}}.
    {test_heap,5,1}.
    {bif,self,{f,0},[],{x,1}}.
    {put_tuple2,{x,1},{list,[{atom,call},{x,1},{x,0},{y,2}]}}.
    {recv_marker_bind,{y,0},{x,0}}.
    {move,{x,0},{y,2}}.
    {init_yregs,{list,[{y,0}]}}.
    {move,{y,3},{x,0}}.
    {line,[{location,"m23_call.erl",16}]}.
    send.
    {recv_marker_use,{y,2}}.
  {label,5}.
    {loop_rec,{f,9},{x,0}}.
    {test,is_tuple,{f,8},[{x,0}]}.
    {select_tuple_arity,{tr,{x,0},{t_tuple,0,false,#{}}},
                        {f,8},
                        {list,[2,{f,7},5,{f,6}]}}.
  {label,6}.
    {get_tuple_element,{x,0},0,{x,1}}.
    {get_tuple_element,{x,0},1,{x,2}}.
    {get_tuple_element,{x,0},2,{x,3}}.
    {get_tuple_element,{x,0},3,{x,4}}.
    {test,is_eq_exact,{f,8},[{x,1},{atom,'DOWN'}]}.
    {test,is_eq_exact,{f,8},[{x,3},{atom,process}]}.
    {test,is_eq_exact,{f,8},[{x,2},{tr,{y,2},reference}]}.
    {test,is_eq_exact,{f,8},[{x,4},{tr,{y,3},pid}]}.
    {test_heap,3,1}.
    {recv_marker_clear,{y,2}}.
    {get_tuple_element,{x,0},4,{x,0}}.
    remove_message.
    {put_tuple2,{x,0},{list,[{atom,down},{x,0}]}}.
    {deallocate,4}.
    return.
  {label,7}.
    {get_tuple_element,{x,0},0,{x,1}}.
    {test,is_eq_exact,{f,8},[{x,1},{tr,{y,2},reference}]}.
    {move,{x,0},{y,3}}.
    remove_message.
    {move,{literal,[flush]},{x,1}}.
    {trim,2,2}.
    {move,{y,0},{x,0}}.
    {line,[{location,"m23_call.erl",18}]}.
    {call_ext,2,{extfunc,erlang,demonitor,2}}.
    {test_heap,3,0}.
    {recv_marker_clear,{y,0}}.
    {get_tuple_element,{y,1},1,{x,0}}.
    {put_tuple2,{x,0},{list,[{atom,ok},{x,0}]}}.
    {deallocate,2}.
    return.
  {label,8}.
    {loop_rec_end,{f,5}}.
  {label,9}.
    {wait_timeout,{f,5},{y,1}}.
    timeout.
    {move,{literal,[flush]},{x,1}}.
    {move,{y,2},{y,3}}.
    {trim,3,1}.
    {move,{y,0},{x,0}}.
    {line,[{location,"m23_call.erl",20}]}.
    {call_ext,2,{extfunc,erlang,demonitor,2}}.
    {recv_marker_clear,{y,0}}.
    {move,{atom,timeout},{x,0}}.
    {deallocate,1}.
    return.


{function, start, 1, 11}.
  {label,10}.
    {line,[{location,"m23_call.erl",22}]}.
    {func_info,{atom,m23_call},{atom,start},1}.
  {label,11}.
    {'%',{var_info,{x,0},
                   [{type,{t_union,{t_atom,[a]},
                                   none,
                                   {t_integer,{0,7}},
                                   none,none}}]}}.
    {test_heap,2,1}.
    {put_list,{x,0},nil,{x,2}}.
    {move,{atom,server},{x,1}}.
    {move,{atom,m23_call},{x,0}}.
    {call_ext_only,3,{extfunc,erlang,spawn,3}}.


{function, server, 1, 13}.
  {label,12}.
    {line,[{location,"m23_call.erl",23}]}.
    {func_info,{atom,m23_call},{atom,server},1}.
  {label,13}.
    {allocate,2,1}.
    {init_yregs,{list,[{y,0}]}}.
    {move,{x,0},{y,1}}.
  {label,14}.
    {loop_rec,{f,21},{x,0}}.
    {test,is_tagged_tuple,{f,20},[{x,0},4,{atom,call}]}.
    {get_tuple_element,{x,0},1,{x,1}}.
    {get_tuple_element,{x,0},2,{x,2}}.
    {get_tuple_element,{x,0},3,{x,0}}.
    {test,is_tuple,{f,17},[{x,0}]}.
    {test,test_arity,{f,20},[{x,0},2]}.
    {get_tuple_element,{x,0},0,{x,3}}.
    {get_tuple_element,{x,0},1,{x,0}}.
    {select_val,{x,3},{f,20},{list,[{atom,add},{f,16},{atom,leave},{f,15}]}}.
  {label,15}.
    remove_message.
    {line,[{location,"m23_call.erl",27}]}.
    {call_ext_last,1,{extfunc,erlang,exit,1},2}.
  {label,16}.
    {move,{x,0},{y,0}}.
    remove_message.
    {line,[{location,"m23_call.erl",25}]}.
    {gc_bif,'+',{f,0},3,[{y,1},{x,0}],{x,0}}.
    {test_heap,3,3}.
    {put_tuple2,{x,0},{list,[{x,2},{x,0}]}}.
    {swap,{x,0},{x,1}}.
    send.
    {gc_bif,'+',{f,0},0,[{tr,{y,1},number},{tr,{y,0},number}],{x,0}}.
    {call_last,1,{f,13},2}. % server/1
  {label,17}.
    {select_val,{x,0},{f,20},{list,[{atom,silent},{f,19},{atom,stop},{f,18}]}}.
  {label,18}.
    {test_heap,3,3}.
    {move,{x,2},{x,0}}.
    remove_message.
    {put_tuple2,{x,0},{list,[{x,0},{y,1}]}}.
    {swap,{x,0},{x,1}}.
    {line,[{location,"m23_call.erl",26}]}.
    send.
    {deallocate,2}.
    return.
  {label,19}.
    remove_message.
    {move,{y,1},{x,0}}.
    {call_last,1,{f,13},2}. % server/1
  {label,20}.
    {loop_rec_end,{f,14}}.
  {label,21}.
    {wait,{f,14}}.


{function, calls, 1, 23}.
  {label,22}.
    {line,[{location,"m23_call.erl",31}]}.
    {func_info,{atom,m23_call},{atom,calls},1}.
  {label,23}.
    {allocate,1,1}.
    {move,{x,0},{y,0}}.
    {move,{integer,0},{x,0}}.
    {call,1,{f,11}}. % start/1
    {'%',{var_info,{x,0},[{type,pid}]}}.
    {move,{y,0},{x,1}}.
    {call_last,2,{f,25},1}. % add_all/2


{function, add_all, 2, 25}.
  {label,24}.
    {line,[{location,"m23_call.erl",32}]}.
    {func_info,{atom,m23_call},{atom,add_all},2}.
  {label,25}.
    {'%',{var_info,{x,0},[{type,pid}]}}.
    {test,is_nonempty_list,{f,26},[{x,1}]}.
    {allocate_heap,2,3,2}.
    {move,{x,0},{y,1}}.
    {get_list,{x,1},{x,0},{y,0}}.
    {put_tuple2,{x,1},{list,[{atom,add},{x,0}]}}.
    {move,{y,1},{x,0}}.
    {line,[{location,"m23_call.erl",33}]}.
    {call,2,{f,2}}. % call/2
    {'%',{var_info,{x,0},
                   [{type,{t_union,{t_atom,[timeout]},
                                   none,none,
                                   [{{2,{t_atom,[down]}},
                                     {t_tuple,2,true,#{1 => {t_atom,[down]}}}},
                                    {{2,{t_atom,[ok]}},
                                     {t_tuple,2,true,#{1 => {t_atom,[ok]}}}}],
                                   none}}]}}.
    {swap,{y,1},{x,0}}.
    {move,{y,0},{x,1}}.
    {trim,1,1}.
    {call,2,{f,25}}. % add_all/2
    {'%',
        {var_info,
            {x,0},
            [{type,
                 {t_list,
                     {t_union,
                         {t_atom,[timeout]},
                         none,none,
                         [{{2,{t_atom,[down]}},
                           {t_tuple,2,true,#{1 => {t_atom,[down]}}}},
                          {{2,{t_atom,[ok]}},
                           {t_tuple,2,true,#{1 => {t_atom,[ok]}}}}],
                         none},
                     nil}}]}}.
    {test_heap,2,1}.
    {put_list,{y,0},{x,0},{x,0}}.
    {deallocate,1}.
    return.
  {label,26}.
    {test,is_nil,{f,24},[{x,1}]}.
    {move,nil,{x,0}}.
    return.


{function, stopped, 0, 28}.
  {label,27}.
    {line,[{location,"m23_call.erl",35}]}.
    {func_info,{atom,m23_call},{atom,stopped},0}.
  {label,28}.
    {allocate,3,0}.
    {init_yregs,{list,[{y,0},{y,1},{y,2}]}}.
    {move,{integer,7},{x,0}}.
    {call,1,{f,11}}. % start/1
    {'%',{var_info,{x,0},[{type,pid}]}}.
    {move,{x,0},{y,2}}.
    {move,{literal,{add,1}},{x,1}}.
    {call,2,{f,2}}. % call/2
    {'%',{var_info,{x,0},
                   [{type,{t_union,{t_atom,[timeout]},
                                   none,none,
                                   [{{2,{t_atom,[down]}},
                                     {t_tuple,2,true,#{1 => {t_atom,[down]}}}},
                                    {{2,{t_atom,[ok]}},
                                     {t_tuple,2,true,#{1 => {t_atom,[ok]}}}}],
                                   none}}]}}.
    {move,{x,0},{y,1}}.
    {move,{y,2},{x,0}}.
    {move,{atom,stop},{x,1}}.
    {call,2,{f,2}}. % call/2
    {'%',{var_info,{x,0},
                   [{type,{t_union,{t_atom,[timeout]},
                                   none,none,
                                   [{{2,{t_atom,[down]}},
                                     {t_tuple,2,true,#{1 => {t_atom,[down]}}}},
                                    {{2,{t_atom,[ok]}},
                                     {t_tuple,2,true,#{1 => {t_atom,[ok]}}}}],
                                   none}}]}}.
    {move,{x,0},{y,0}}.
    {move,{y,2},{x,0}}.
    {call,1,{f,47}}. % gone/1
    {'%',{var_info,{x,0},[{type,{t_atom,[gone]}}]}}.
    {move,{atom,stop},{x,1}}.
    {move,{y,2},{x,0}}.
    {move,{y,0},{y,2}}.
    {trim,1,2}.
    {call,2,{f,2}}. % call/2
    {'%',{var_info,{x,0},
                   [{type,{t_union,{t_atom,[timeout]},
                                   none,none,
                                   [{{2,{t_atom,[down]}},
                                     {t_tuple,2,true,#{1 => {t_atom,[down]}}}},
                                    {{2,{t_atom,[ok]}},
                                     {t_tuple,2,true,#{1 => {t_atom,[ok]}}}}],
                                   none}}]}}.
    {test_heap,5,1}.
    {put_tuple2,{x,0},{list,[{y,0},{y,1},{atom,gone},{x,0}]}}.
    {deallocate,2}.
    return.


{function, dead, 1, 30}.
  {label,29}.
    {line,[{location,"m23_call.erl",36}]}.
    {func_info,{atom,m23_call},{atom,dead},1}.
  {label,30}.
    {allocate,1,1}.
    {move,{x,0},{y,0}}.
    {move,{integer,0},{x,0}}.
    {call,1,{f,11}}. % start/1
    {'%',{var_info,{x,0},[{type,pid}]}}.
    {test_heap,3,1}.
    {put_tuple2,{x,1},{list,[{atom,leave},{y,0}]}}.
    {call_last,2,{f,2},1}. % call/2


{function, crashed, 0, 32}.
  {label,31}.
    {line,[{location,"m23_call.erl",37}]}.
    {func_info,{atom,m23_call},{atom,crashed},0}.
  {label,32}.
    {allocate,0,0}.
    {move,{atom,a},{x,0}}.
    {call,1,{f,11}}. % start/1
    {'%',{var_info,{x,0},[{type,pid}]}}.
    {move,{literal,{add,1}},{x,1}}.
    {call,2,{f,2}}. % call/2
    {'%',{var_info,{x,0},
                   [{type,{t_union,{t_atom,[timeout]},
                                   none,none,
                                   [{{2,{t_atom,[down]}},
                                     {t_tuple,2,true,#{1 => {t_atom,[down]}}}},
                                    {{2,{t_atom,[ok]}},
                                     {t_tuple,2,true,#{1 => {t_atom,[ok]}}}}],
                                   none}}]}}.
    {test,is_tagged_tuple,
          {f,33},
          [{tr,{x,0},
               {t_union,{t_atom,[timeout]},
                        none,none,
                        [{{2,{t_atom,[down]}},
                          {t_tuple,2,true,#{1 => {t_atom,[down]}}}},
                         {{2,{t_atom,[ok]}},
                          {t_tuple,2,true,#{1 => {t_atom,[ok]}}}}],
                        none}},
           2,
           {atom,down}]}.
    {get_tuple_element,{x,0},1,{x,1}}.
    {test,is_tuple,{f,33},[{x,1}]}.
    {test,test_arity,{f,33},[{x,1},2]}.
    {get_tuple_element,{x,1},0,{x,0}}.
    {deallocate,0}.
    return.
  {label,33}.
    {badmatch,{x,0}}.


{function, silent, 1, 35}.
  {label,34}.
    {line,[{location,"m23_call.erl",38}]}.
    {func_info,{atom,m23_call},{atom,silent},1}.
  {label,35}.
    {allocate,1,1}.
    {move,{x,0},{y,0}}.
    {move,{integer,1},{x,0}}.
    {call,1,{f,11}}. % start/1
    {'%',{var_info,{x,0},[{type,pid}]}}.
    {move,{y,0},{x,2}}.
    {move,{x,0},{y,0}}.
    {move,{atom,silent},{x,1}}.
    {call,3,{f,4}}. % call/3
    {'%',{var_info,{x,0},
                   [{type,{t_union,{t_atom,[timeout]},
                                   none,none,
                                   [{{2,{t_atom,[down]}},
                                     {t_tuple,2,true,#{1 => {t_atom,[down]}}}},
                                    {{2,{t_atom,[ok]}},
                                     {t_tuple,2,true,#{1 => {t_atom,[ok]}}}}],
                                   none}}]}}.
    {swap,{y,0},{x,0}}.
    {move,{literal,{add,1}},{x,1}}.
    {call,2,{f,2}}. % call/2
    {'%',{var_info,{x,0},
                   [{type,{t_union,{t_atom,[timeout]},
                                   none,none,
                                   [{{2,{t_atom,[down]}},
                                     {t_tuple,2,true,#{1 => {t_atom,[down]}}}},
                                    {{2,{t_atom,[ok]}},
                                     {t_tuple,2,true,#{1 => {t_atom,[ok]}}}}],
                                   none}}]}}.
    {test_heap,3,1}.
    {put_tuple2,{x,0},{list,[{y,0},{x,0}]}}.
    {deallocate,1}.
    return.


{function, crowded, 1, 37}.
  {label,36}.
    {line,[{location,"m23_call.erl",40}]}.
    {func_info,{atom,m23_call},{atom,crowded},1}.
  {label,37}.
    {allocate,2,1}.
    {init_yregs,{list,[{y,0}]}}.
    {move,{x,0},{y,1}}.
    {move,{integer,0},{x,0}}.
    {call,1,{f,11}}. % start/1
    {'%',{var_info,{x,0},[{type,pid}]}}.
    {move,{x,0},{y,0}}.
    {move,{y,1},{x,0}}.
    {call,1,{f,39}}. % junk/1
    {'%',{var_info,{x,0},[{type,{t_atom,[ok]}}]}}.
    {test_heap,3,0}.
    {put_tuple2,{x,1},{list,[{atom,add},{y,1}]}}.
    {move,{y,0},{x,0}}.
    {init_yregs,{list,[{y,1}]}}.
    {trim,1,1}.
    {call,2,{f,2}}. % call/2
    {'%',{var_info,{x,0},
                   [{type,{t_union,{t_atom,[timeout]},
                                   none,none,
                                   [{{2,{t_atom,[down]}},
                                     {t_tuple,2,true,#{1 => {t_atom,[down]}}}},
                                    {{2,{t_atom,[ok]}},
                                     {t_tuple,2,true,#{1 => {t_atom,[ok]}}}}],
                                   none}}]}}.
    {move,{x,0},{y,0}}.
    {move,{integer,0},{x,0}}.
    {call,1,{f,42}}. % taken/1
    {'%',{var_info,{x,0},[{type,{t_integer,{-1000002,1000002}}}]}}.
    {test_heap,3,1}.
    {put_tuple2,{x,0},{list,[{y,0},{x,0}]}}.
    {deallocate,1}.
    return.


{function, junk, 1, 39}.
  {label,38}.
    {line,[{location,"m23_call.erl",41}]}.
    {func_info,{atom,m23_call},{atom,junk},1}.
  {label,39}.
    {test,is_eq_exact,{f,40},[{x,0},{integer,0}]}.
    {move,{atom,ok},{x,0}}.
    return.
  {label,40}.
    {allocate_heap,1,3,1}.
    {move,{x,0},{y,0}}.
    {bif,self,{f,0},[],{x,0}}.
    {put_tuple2,{x,1},{list,[{atom,junk},{y,0}]}}.
    {line,[{location,"m23_call.erl",42}]}.
    send.
    {gc_bif,'-',{f,0},0,[{y,0},{integer,1}],{x,0}}.
    {call_last,1,{f,39},1}. % junk/1


{function, taken, 1, 42}.
  {label,41}.
    {line,[{location,"m23_call.erl",43}]}.
    {func_info,{atom,m23_call},{atom,taken},1}.
  {label,42}.
    {'%',{var_info,{x,0},[{type,number}]}}.
    {allocate,1,1}.
    {move,{x,0},{y,0}}.
  {label,43}.
    {loop_rec,{f,45},{x,0}}.
    {test,is_tagged_tuple,{f,44},[{x,0},2,{atom,junk}]}.
    remove_message.
    {gc_bif,'*',{f,0},1,[{tr,{y,0},number},{integer,2}],{x,1}}.
    {get_tuple_element,{x,0},1,{x,0}}.
    {gc_bif,'+',{f,0},2,[{tr,{x,1},number},{x,0}],{x,0}}.
    {call_last,1,{f,42},1}. % taken/1
  {label,44}.
    {loop_rec_end,{f,43}}.
  {label,45}.
    {wait_timeout,{f,43},{integer,10}}.
    timeout.
    {gc_bif,'rem',{f,0},0,[{tr,{y,0},number},{integer,1000003}],{x,0}}.
    {deallocate,1}.
    return.


{function, gone, 1, 47}.
  {label,46}.
    {line,[{location,"m23_call.erl",45}]}.
    {func_info,{atom,m23_call},{atom,gone},1}.
  {label,47}.
    {'%',{var_info,{x,0},[{type,pid}]}}.
    {allocate,1,1}.
    {move,{x,0},{y,0}}.
    {call_ext,1,{extfunc,erlang,is_process_alive,1}}.
    {select_val,{x,0},{f,50},{list,[{atom,false},{f,49},{atom,true},{f,48}]}}.
  {label,48}.
    {move,{y,0},{x,0}}.
    {call_last,1,{f,47},1}. % gone/1
  {label,49}.
    {move,{atom,gone},{x,0}}.
    {deallocate,1}.
    return.
  {label,50}.
    {case_end,{x,0}}.


{function, noproc, 0, 52}.
  {label,51}.
    {line,[{location,"m23_call.erl",46}]}.
    {func_info,{atom,m23_call},{atom,noproc},0}.
  {label,52}.
    {allocate,1,0}.
    {init_yregs,{list,[{y,0}]}}.
    {move,{integer,0},{x,0}}.
    {call,1,{f,11}}. % start/1
    {'%',{var_info,{x,0},[{type,pid}]}}.
    {move,{x,0},{y,0}}.
    {move,{atom,kill},{x,1}}.
    {call_ext,2,{extfunc,erlang,exit,2}}.
    {move,{y,0},{x,0}}.
    {call,1,{f,47}}. % gone/1
    {'%',{var_info,{x,0},[{type,{t_atom,[gone]}}]}}.
    {move,{literal,{add,1}},{x,1}}.
    {move,{y,0},{x,0}}.
    {call_last,2,{f,2},1}. % call/2


{function, module_info, 0, 54}.
  {label,53}.
    {line,[]}.
    {func_info,{atom,m23_call},{atom,module_info},0}.
  {label,54}.
    {move,{atom,m23_call},{x,0}}.
    {call_ext_only,1,{extfunc,erlang,get_module_info,1}}.


{function, module_info, 1, 56}.
  {label,55}.
    {line,[]}.
    {func_info,{atom,m23_call},{atom,module_info},1}.
  {label,56}.
    {move,{x,0},{x,1}}.
    {move,{atom,m23_call},{x,0}}.
    {call_ext_only,2,{extfunc,erlang,get_module_info,2}}.

{module, m26_exits}.  %% version = 0

{exports, [{caught,3},
           {check,2},
           {checked,2},
           {counted,1},
           {f,3},
           {flush,1},
           {flushed,1},
           {g,1},
           {join,2},
           {joined,2},
           {merge,3},
           {merged,3},
           {module_info,0},
           {module_info,1}]}.

{attributes, []}.

{labels, 119}.


{function, f, 3, 2}.
  {label,1}.
    {line,[{location,"m26_exits.erl",12}]}.
    {func_info,{atom,m26_exits},{atom,f},3}.
  {label,2}.
    {allocate,3,3}.
    {init_yregs,{list,[{y,0}]}}.
    {move,{x,2},{y,1}}.
    {move,{x,1},{y,2}}.
    {line,[{location,"m26_exits.erl",13}]}.
    {call,1,{f,7}}. % g/1
    {move,{x,0},{y,0}}.
    {test,is_tagged_tuple,{f,5},[{x,0},2,{atom,ok}]}.
    {move,{y,2},{x,0}}.
    {init_yregs,{list,[{y,2}]}}.
    {line,[{location,"m26_exits.erl",15}]}.
    {call,1,{f,7}}. % g/1
    {move,{x,0},{y,2}}.
    {test,is_tagged_tuple,{f,4},[{x,0},2,{atom,ok}]}.
    {move,{y,1},{x,0}}.
    {move,{y,0},{y,1}}.
    {trim,1,2}.
    {line,[{location,"m26_exits.erl",17}]}.
    {call,1,{f,7}}. % g/1
    {test,is_tagged_tuple,{f,3},[{x,0},2,{atom,ok}]}.
    {test_heap,4,1}.
    {get_tuple_element,{x,0},1,{x,0}}.
    {get_tuple_element,{y,1},1,{x,1}}.
    {get_tuple_element,{y,0},1,{x,2}}.
    {put_tuple2,{x,0},{list,[{x,2},{x,1},{x,0}]}}.
    {deallocate,2}.
    return.
  {label,3}.
    {move,{atom,no},{x,0}}.
    {line,[{location,"m26_exits.erl",19}]}.
    {call_ext_last,1,{extfunc,erlang,throw,1},3}.
  {label,4}.
    {move,{atom,no},{x,0}}.
    {line,[{location,"m26_exits.erl",21}]}.
    {call_ext_last,1,{extfunc,erlang,throw,1},3}.
  {label,5}.
    {move,{atom,no},{x,0}}.
    {line,[{location,"m26_exits.erl",23}]}.
    {call_ext_last,1,{extfunc,erlang,throw,1},3}.


{function, g, 1, 7}.
  {label,6}.
    {line,[{location,"m26_exits.erl",26}]}.
    {func_info,{atom,m26_exits},{atom,g},1}.
  {label,7}.
    {bif,element,{f,0},[{integer,1},{x,0}],{x,0}}.
    return.


{function, flush, 1, 9}.
  {label,8}.
    {line,[{location,"m26_exits.erl",29}]}.
    {func_info,{atom,m26_exits},{atom,flush},1}.
  {label,9}.
    {test,is_tagged_tuple,{f,15},[{x,0},6,{atom,store}]}.
    {allocate,3,1}.
    {init_yregs,{list,[{y,0}]}}.
    {move,{x,0},{y,2}}.
    {get_tuple_element,{x,0},4,{y,1}}.
    {move,{y,1},{x,0}}.
    {line,[{location,"m26_exits.erl",31}]}.
    {call,1,{f,17}}. % is_empty/1
    {'%',{var_info,{x,0},[{type,{t_atom,[false,true,unknown]}}]}}.
    {select_val,{x,0},{f,14},{list,[{atom,false},{f,11},{atom,true},{f,10}]}}.
  {label,10}.
    {test_heap,3,0}.
    {put_tuple2,{x,0},{list,[{y,2},nil]}}.
    {deallocate,3}.
    return.
  {label,11}.
    {move,{y,1},{x,0}}.
    {init_yregs,{list,[{y,1}]}}.
    {line,[{location,"m26_exits.erl",34}]}.
    {call,1,{f,21}}. % taken/1
    {'%',{var_info,{x,0},
                   [{type,{t_union,{t_atom,[broken]},
                                   none,none,
                                   {t_tuple,3,true,#{2 => {t_integer,{3,3}}}},
                                   none}}]}}.
    {move,{x,0},{y,1}}.
    {test,is_tuple,
          {f,13},
          [{tr,{x,0},
               {t_union,{t_atom,[broken]},
                        none,none,
                        {t_tuple,3,true,#{2 => {t_integer,{3,3}}}},
                        none}}]}.
    {get_tuple_element,{x,0},2,{y,0}}.
    {line,[{location,"m26_exits.erl",35}]}.
    {gc_bif,length,{f,0},0,[{y,0}],{x,1}}.
    {move,{integer,3},{x,0}}.
    {call_ext,2,{extfunc,erlang,min,2}}.
    {get_tuple_element,{y,1},0,{x,2}}.
    {move,{y,2},{x,1}}.
    {move,{x,0},{y,2}}.
    {init_yregs,{list,[{y,1}]}}.
    {move,{integer,5},{x,0}}.
    {line,[{location,"m26_exits.erl",36}]}.
    {call_ext,3,{extfunc,erlang,setelement,3}}.
    {move,{y,2},{x,1}}.
    {move,{y,0},{y,2}}.
    {trim,2,1}.
    {line,[{location,"m26_exits.erl",37}]}.
    {call,2,{f,25}}. % grown/2
    {'%',
        {var_info,
            {x,0},
            [{type,
                 {t_tuple,2,false,
                     #{1 =>
                           {t_union,
                               {t_atom,[full]},
                               none,none,
                               [{{6,{t_atom,[store]}},
                                 {t_tuple,6,true,
                                     #{1 => {t_atom,[store]},3 => number}}}],
                               none}}}}]}}.
    {test,test_arity,{f,12},[{x,0},2]}.
    {get_tuple_element,{x,0},1,{x,1}}.
    {test,is_eq_exact,{f,12},[{x,1},{atom,ok}]}.
    {get_tuple_element,{x,0},0,{x,0}}.
    {move,{y,0},{x,1}}.
    {call_last,2,{f,28},1}. % filled/2
  {label,12}.
    {line,[{location,"m26_exits.erl",39}]}.
    {call_ext_last,1,{extfunc,erlang,throw,1},3}.
  {label,13}.
    {line,[{location,"m26_exits.erl",34}]}.
    {badmatch,{atom,broken}}.
  {label,14}.
    {line,[{location,"m26_exits.erl",31}]}.
    {case_end,{atom,unknown}}.
  {label,15}.
    {line,[{location,"m26_exits.erl",30}]}.
    {badrecord,{x,0}}.


{function, is_empty, 1, 17}.
  {label,16}.
    {line,[{location,"m26_exits.erl",43}]}.
    {func_info,{atom,m26_exits},{atom,is_empty},1}.
  {label,17}.
    {test,is_nonempty_list,{f,18},[{x,0}]}.
    {move,{atom,false},{x,0}}.
    return.
  {label,18}.
    {test,is_nil,{f,19},[{x,0}]}.
    {move,{atom,true},{x,0}}.
    return.
  {label,19}.
    {move,{atom,unknown},{x,0}}.
    return.


{function, taken, 1, 21}.
  {label,20}.
    {line,[{location,"m26_exits.erl",47}]}.
    {func_info,{atom,m26_exits},{atom,taken},1}.
  {label,21}.
    {test,is_nonempty_list,{f,23},[{x,0}]}.
    {get_list,{x,0},{x,1},{x,2}}.
    {test,is_tuple,{f,22},[{x,1}]}.
    {test,is_tagged_tuple,
          {f,23},
          [{tr,{x,1},{t_tuple,0,false,#{}}},2,{atom,rest}]}.
    {test_heap,4,3}.
    {get_tuple_element,{x,1},1,{x,0}}.
    {put_tuple2,{x,0},{list,[{x,0},{integer,3},{x,2}]}}.
    return.
  {label,22}.
    {test,is_eq_exact,{f,23},[{x,1},{atom,broken}]}.
    {move,{atom,broken},{x,0}}.
    return.
  {label,23}.
    {test_heap,4,1}.
    {put_tuple2,{x,0},{list,[nil,{integer,3},{x,0}]}}.
    return.


{function, grown, 2, 25}.
  {label,24}.
    {line,[{location,"m26_exits.erl",51}]}.
    {func_info,{atom,m26_exits},{atom,grown},2}.
  {label,25}.
    {'%',{var_info,{x,0},[{type,{t_tuple,6,true,#{1 => {t_atom,[store]}}}}]}}.
    {get_tuple_element,{x,0},2,{x,2}}.
    {gc_bif,'+',{f,26},3,[{x,2},{x,1}],{x,2}}.
    {get_tuple_element,{x,0},3,{x,3}}.
    {test,is_ge,{f,26},[{x,3},{tr,{x,2},number}]}.
    {allocate,0,3}.
    {move,{x,0},{x,1}}.
    {move,{integer,3},{x,0}}.
    {call_ext,3,{extfunc,erlang,setelement,3}}.
    {test_heap,3,1}.
    {put_tuple2,{x,0},{list,[{x,0},{atom,ok}]}}.
    {deallocate,0}.
    return.
  {label,26}.
    {test_heap,4,2}.
    {get_tuple_element,{x,0},1,{x,0}}.
    {put_tuple2,{x,0},{list,[{atom,full},{x,0},{x,1}]}}.
    return.


{function, filled, 2, 28}.
  {label,27}.
    {line,[{location,"m26_exits.erl",54}]}.
    {func_info,{atom,m26_exits},{atom,filled},2}.
  {label,28}.
    {'%',
        {var_info,
            {x,0},
            [{type,
                 {t_union,
                     {t_atom,[full]},
                     none,none,
                     [{{6,{t_atom,[store]}},
                       {t_tuple,6,true,#{1 => {t_atom,[store]},3 => number}}}],
                     none}}]}}.
    {'%',{var_info,{x,1},[{type,{t_list,any,nil}}]}}.
    {test,is_tuple,
          {f,29},
          [{tr,{x,0},
               {t_union,{t_atom,[full]},
                        none,none,
                        [{{6,{t_atom,[store]}},
                          {t_tuple,6,true,
                                   #{1 => {t_atom,[store]},3 => number}}}],
                        none}}]}.
    {allocate,2,2}.
    {move,{x,1},{y,0}}.
    {move,{x,0},{y,1}}.
    {get_tuple_element,{x,0},5,{x,1}}.
    {move,{y,0},{x,0}}.
    {call_ext,2,{extfunc,erlang,'++',2}}.
    {move,{y,1},{x,1}}.
    {move,{x,0},{x,2}}.
    {init_yregs,{list,[{y,1}]}}.
    {move,{integer,6},{x,0}}.
    {call_ext,3,{extfunc,erlang,setelement,3}}.
    {test_heap,3,1}.
    {put_tuple2,{x,0},{list,[{x,0},{y,0}]}}.
    {deallocate,2}.
    return.
  {label,29}.
    {move,{atom,full},{x,0}}.
    {jump,{f,27}}.


{function, joined, 2, 31}.
  {label,30}.
    {line,[{location,"m26_exits.erl",57}]}.
    {func_info,{atom,m26_exits},{atom,joined},2}.
  {label,31}.
    {test,is_tagged_tuple,{f,30},[{x,0},3,{atom,pairs}]}.
    {test,is_tagged_tuple,{f,30},[{x,1},3,{atom,pairs}]}.
    {allocate,5,2}.
    {init_yregs,{list,[{y,0},{y,1},{y,2}]}}.
    {move,{x,1},{y,3}}.
    {move,{x,0},{y,4}}.
    {get_tuple_element,{x,0},2,{x,0}}.
    {test,is_tuple,{f,32},[{x,0}]}.
    {test,test_arity,{f,41},[{x,0},2]}.
    {jump,{f,33}}.
  {label,32}.
    {test,is_eq_exact,{f,41},[{x,0},{atom,any}]}.
    {move,{literal,{any,any}},{x,0}}.
  {label,33}.
    {get_tuple_element,{x,0},0,{y,2}}.
    {get_tuple_element,{y,3},2,{x,1}}.
    {test,is_tuple,{f,34},[{x,1}]}.
    {test,test_arity,{f,40},[{x,1},2]}.
    {jump,{f,35}}.
  {label,34}.
    {test,is_eq_exact,{f,40},[{x,1},{atom,any}]}.
    {move,{literal,{any,any}},{x,1}}.
  {label,35}.
    {get_tuple_element,{x,1},0,{y,1}}.
    {get_tuple_element,{x,1},1,{y,0}}.
    {get_tuple_element,{x,0},1,{x,0}}.
    {move,{y,1},{x,1}}.
    {line,[{location,"m26_exits.erl",70}]}.
    {call,2,{f,43}}. % fits/2
    {'%',{var_info,{x,0},[{type,{t_atom,[false,true]}}]}}.
    {test,is_eq_exact,{f,39},[{x,0},{atom,true}]}.
    {test,is_eq_exact,{f,36},[{y,2},{atom,any}]}.
    {move,{y,4},{x,0}}.
    {deallocate,5}.
    return.
  {label,36}.
    {test,is_eq_exact,{f,37},[{y,1},{atom,any}]}.
    {move,{y,3},{x,0}}.
    {deallocate,5}.
    return.
  {label,37}.
    {get_tuple_element,{y,3},1,{x,1}}.
    {get_tuple_element,{y,4},1,{x,0}}.
    {move,{y,0},{y,4}}.
    {move,{y,2},{y,3}}.
    {trim,3,2}.
    {line,[{location,"m26_exits.erl",74}]}.
    {call,2,{f,47}}. % behind/2
    {'%',
        {var_info,
            {x,0},
            [{type,
                 {t_union,none,
                     {t_list,{t_tuple,2,true,#{}},nil},
                     none,
                     [{{2,{t_atom,[no_value]}},
                       {t_tuple,2,true,#{1 => {t_atom,[no_value]}}}}],
                     none}}]}}.
    {test,is_list,
          {f,38},
          [{tr,{x,0},
               {t_union,none,
                        {t_list,{t_tuple,2,true,#{}},nil},
                        none,
                        [{{2,{t_atom,[no_value]}},
                          {t_tuple,2,true,#{1 => {t_atom,[no_value]}}}}],
                        none}}]}.
    {move,nil,{x,1}}.
    {line,[{location,"m26_exits.erl",75}]}.
    {call,2,{f,56}}. % turned/2
    {'%',{var_info,{x,0},[{type,{t_list,{t_tuple,2,true,#{}},nil}}]}}.
    {test_heap,7,1}.
    {put_tuple2,{x,1},{list,[{y,0},{y,1}]}}.
    {put_tuple2,{x,0},{list,[{atom,pairs},{x,0},{x,1}]}}.
    {deallocate,2}.
    return.
  {label,38}.
    {line,[{location,"m26_exits.erl",76}]}.
    {call_ext_last,1,{extfunc,erlang,error,1},5}.
  {label,39}.
    {move,{atom,no_fit},{x,0}}.
    {line,[{location,"m26_exits.erl",78}]}.
    {call_ext_last,1,{extfunc,erlang,error,1},5}.
  {label,40}.
    {move,{atom,badarg},{x,0}}.
    {line,[{location,"m26_exits.erl",68}]}.
    {call_ext_last,1,{extfunc,erlang,error,1},5}.
  {label,41}.
    {move,{atom,badarg},{x,0}}.
    {line,[{location,"m26_exits.erl",62}]}.
    {call_ext_last,1,{extfunc,erlang,error,1},5}.


{function, fits, 2, 43}.
  {label,42}.
    {line,[{location,"m26_exits.erl",81}]}.
    {func_info,{atom,m26_exits},{atom,fits},2}.
  {label,43}.
    {test,is_ne_exact,{f,44},[{x,0},{atom,any}]}.
    {test,is_eq_exact,{f,45},[{x,1},{atom,any}]}.
  {label,44}.
    {move,{atom,true},{x,0}}.
    return.
  {label,45}.
    {bif,'=:=',{f,0},[{x,1},{x,0}],{x,0}}.
    return.


{function, behind, 2, 47}.
  {label,46}.
    {line,[{location,"m26_exits.erl",86}]}.
    {func_info,{atom,m26_exits},{atom,behind},2}.
  {label,47}.
    {test,is_nonempty_list,{f,50},[{x,0}]}.
    {get_list,{x,0},{x,2},{x,3}}.
    {test,is_tuple,{f,46},[{x,2}]}.
    {test,test_arity,{f,46},[{x,2},2]}.
    {allocate,5,4}.
    {init_yregs,{list,[{y,0}]}}.
    {move,{x,3},{y,3}}.
    {move,{x,1},{y,4}}.
    {get_tuple_element,{x,2},0,{y,2}}.
    {get_tuple_element,{x,2},1,{y,1}}.
    {move,{y,1},{x,0}}.
    {line,[{location,"m26_exits.erl",88}]}.
    {call,2,{f,52}}. % found/2
    {'%',{var_info,{x,0},
                   [{type,{t_union,{t_atom,[none]},
                                   none,none,
                                   [{{2,{t_atom,[ok]}},
                                     {t_tuple,2,true,#{1 => {t_atom,[ok]}}}}],
                                   none}}]}}.
    {move,{x,0},{y,0}}.
    {test,is_tuple,
          {f,49},
          [{tr,{x,0},
               {t_union,{t_atom,[none]},
                        none,none,
                        [{{2,{t_atom,[ok]}},
                          {t_tuple,2,true,#{1 => {t_atom,[ok]}}}}],
                        none}}]}.
    {move,{y,4},{x,1}}.
    {move,{y,3},{x,0}}.
    {init_yregs,{list,[{y,1},{y,3},{y,4}]}}.
    {line,[{location,"m26_exits.erl",90}]}.
    {call,2,{f,47}}. % behind/2
    {'%',
        {var_info,
            {x,0},
            [{type,
                 {t_union,none,
                     {t_list,{t_tuple,2,true,#{}},nil},
                     none,
                     [{{2,{t_atom,[no_value]}},
                       {t_tuple,2,true,#{1 => {t_atom,[no_value]}}}}],
                     none}}]}}.
    {test,is_list,
          {f,48},
          [{tr,{x,0},
               {t_union,none,
                        {t_list,{t_tuple,2,true,#{}},nil},
                        none,
                        [{{2,{t_atom,[no_value]}},
                          {t_tuple,2,true,#{1 => {t_atom,[no_value]}}}}],
                        none}}]}.
    {test_heap,5,1}.
    {get_tuple_element,{y,0},1,{x,1}}.
    {put_tuple2,{x,1},{list,[{y,2},{x,1}]}}.
    {put_list,{x,1},{x,0},{x,0}}.
    {deallocate,5}.
    return.
  {label,48}.
    {deallocate,5}.
    return.
  {label,49}.
    {test_heap,3,0}.
    {put_tuple2,{x,0},{list,[{atom,no_value},{y,1}]}}.
    {deallocate,5}.
    return.
  {label,50}.
    {test,is_nil,{f,46},[{x,0}]}.
    return.


{function, found, 2, 52}.
  {label,51}.
    {line,[{location,"m26_exits.erl",97}]}.
    {func_info,{atom,m26_exits},{atom,found},2}.
  {label,52}.
    {test,is_nonempty_list,{f,54},[{x,1}]}.
    {get_list,{x,1},{x,2},{x,1}}.
    {test,is_tuple,{f,53},[{x,2}]}.
    {test,test_arity,{f,53},[{x,2},2]}.
    {get_tuple_element,{x,2},0,{x,3}}.
    {test,is_eq_exact,{f,53},[{x,3},{x,0}]}.
    {test_heap,3,3}.
    {get_tuple_element,{x,2},1,{x,0}}.
    {put_tuple2,{x,0},{list,[{atom,ok},{x,0}]}}.
    return.
  {label,53}.
    {call_only,2,{f,52}}. % found/2
  {label,54}.
    {test,is_nil,{f,51},[{x,1}]}.
    {move,{atom,none},{x,0}}.
    return.


{function, turned, 2, 56}.
  {label,55}.
    {line,[{location,"m26_exits.erl",101}]}.
    {func_info,{atom,m26_exits},{atom,turned},2}.
  {label,56}.
    {'%',{var_info,{x,0},[{type,{t_list,{t_tuple,2,true,#{}},nil}}]}}.
    {'%',{var_info,{x,1},[{type,{t_list,{t_tuple,2,true,#{}},nil}}]}}.
    {test,is_nonempty_list,{f,57},[{x,0}]}.
    {test_heap,2,2}.
    {get_list,{x,0},{x,2},{x,0}}.
    {put_list,{x,2},{x,1},{x,1}}.
    {call_only,2,{f,56}}. % turned/2
  {label,57}.
    {move,{x,1},{x,0}}.
    return.


{function, check, 2, 59}.
  {label,58}.
    {line,[{location,"m26_exits.erl",105}]}.
    {func_info,{atom,m26_exits},{atom,check},2}.
  {label,59}.
    {allocate,3,2}.
    {init_yregs,{list,[{y,0}]}}.
    {move,{x,1},{y,1}}.
    {move,{x,0},{y,2}}.
    {line,[{location,"m26_exits.erl",106}]}.
    {call,1,{f,71}}. % lists/1
    {'%',
        {var_info,
            {x,0},
            [{type,
                 {t_union,none,none,none,
                     [{{2,{t_atom,[badarg]}},
                       {t_tuple,2,true,#{1 => {t_atom,[badarg]}}}},
                      {{2,{t_atom,[error]}},
                       {t_tuple,2,true,
                           #{1 => {t_atom,[error]},
                             2 =>
                                 {t_tuple,2,true,
                                     #{1 => {t_atom,[closed]},
                                       2 => {t_atom,[here]}}}}}},
                      {{2,{t_atom,[true]}},
                       {t_tuple,2,true,
                           #{1 => {t_atom,[true]},2 => {t_list,any,any}}}}],
                     none}}]}}.
    {move,{x,0},{y,0}}.
    {move,{y,1},{x,0}}.
    {call,1,{f,78}}. % options/1
    {'%',
        {var_info,
            {x,0},
            [{type,
                 {t_union,none,none,none,
                     [{{2,{t_atom,[badarg]}},
                       {t_tuple,2,true,#{1 => {t_atom,[badarg]}}}},
                      {{3,{t_atom,[options]}},
                       {t_tuple,3,true,
                           #{1 => {t_atom,[options]},
                             2 => {t_atom,[down,up]},
                             3 => {t_integer,any}}}}],
                     none}}]}}.
    {test,is_tagged_tuple,
        {f,60},
        [{tr,{y,0},
             {t_union,none,none,none,
                 [{{2,{t_atom,[badarg]}},
                   {t_tuple,2,true,#{1 => {t_atom,[badarg]}}}},
                  {{2,{t_atom,[error]}},
                   {t_tuple,2,true,
                       #{1 => {t_atom,[error]},
                         2 =>
                             {t_tuple,2,true,
                                 #{1 => {t_atom,[closed]},
                                   2 => {t_atom,[here]}}}}}},
                  {{2,{t_atom,[true]}},
                   {t_tuple,2,true,
                       #{1 => {t_atom,[true]},2 => {t_list,any,any}}}}],
                 none}},
         2,
         {atom,true}]}.
    {test,test_arity,{f,60},[{x,0},3]}.
    {get_tuple_element,{y,0},1,{x,1}}.
    {move,{x,0},{x,2}}.
    {move,{x,1},{x,0}}.
    {move,{atom,none},{x,1}}.
    {call_last,3,{f,88},3}. % done/3
  {label,60}.
    {test_heap,3,1}.
    {put_tuple2,{x,0},{list,[{y,0},{x,0}]}}.
    {trim,1,2}.
    {line,[{location,"m26_exits.erl",108}]}.
    {call_ext,1,{extfunc,erlang,tuple_to_list,1}}.
    {call,1,{f,67}}. % culprit/1
    {'%',
        {var_info,
            {x,0},
            [{type,
                 {t_union,none,none,none,
                     [{{2,{t_atom,[badarg]}},
                       {t_tuple,2,true,#{1 => {t_atom,[badarg]}}}},
                      {{2,{t_atom,[error]}},
                       {t_tuple,2,true,#{1 => {t_atom,[error]}}}}],
                     none}}]}}.
    {test_heap,4,1}.
    {put_list,{y,0},nil,{x,1}}.
    {put_list,{y,1},{x,1},{x,1}}.
    {get_tuple_element,{x,0},0,{x,2}}.
    {test,is_eq_exact,{f,61},[{x,2},{atom,error}]}.
    {deallocate,2}.
    return.
  {label,61}.
    {line,[{location,"m26_exits.erl",119}]}.
    {call_ext_last,2,{extfunc,erlang,error,2},3}.


{function, merge, 3, 63}.
  {label,62}.
    {line,[{location,"m26_exits.erl",111}]}.
    {func_info,{atom,m26_exits},{atom,merge},3}.
  {label,63}.
    {allocate,5,3}.
    {init_yregs,{list,[{y,0},{y,1}]}}.
    {move,{x,2},{y,2}}.
    {move,{x,1},{y,3}}.
    {move,{x,0},{y,4}}.
    {line,[{location,"m26_exits.erl",112}]}.
    {call,1,{f,71}}. % lists/1
    {'%',
        {var_info,
            {x,0},
            [{type,
                 {t_union,none,none,none,
                     [{{2,{t_atom,[badarg]}},
                       {t_tuple,2,true,#{1 => {t_atom,[badarg]}}}},
                      {{2,{t_atom,[error]}},
                       {t_tuple,2,true,
                           #{1 => {t_atom,[error]},
                             2 =>
                                 {t_tuple,2,true,
                                     #{1 => {t_atom,[closed]},
                                       2 => {t_atom,[here]}}}}}},
                      {{2,{t_atom,[true]}},
                       {t_tuple,2,true,
                           #{1 => {t_atom,[true]},2 => {t_list,any,any}}}}],
                     none}}]}}.
    {move,{x,0},{y,1}}.
    {move,{y,3},{x,0}}.
    {call,1,{f,75}}. % name/1
    {'%',
        {var_info,
            {x,0},
            [{type,
                 {t_union,none,none,none,
                     [{{2,{t_atom,[badarg]}},
                       {t_tuple,2,true,#{1 => {t_atom,[badarg]}}}},
                      {{2,{t_atom,[true]}},
                       {t_tuple,2,true,
                           #{1 => {t_atom,[true]},2 => {t_atom,any}}}}],
                     none}}]}}.
    {move,{x,0},{y,0}}.
    {move,{y,2},{x,0}}.
    {call,1,{f,78}}. % options/1
    {'%',
        {var_info,
            {x,0},
            [{type,
                 {t_union,none,none,none,
                     [{{2,{t_atom,[badarg]}},
                       {t_tuple,2,true,#{1 => {t_atom,[badarg]}}}},
                      {{3,{t_atom,[options]}},
                       {t_tuple,3,true,
                           #{1 => {t_atom,[options]},
                             2 => {t_atom,[down,up]},
                             3 => {t_integer,any}}}}],
                     none}}]}}.
    {test,is_tagged_tuple,
        {f,64},
        [{tr,{y,1},
             {t_union,none,none,none,
                 [{{2,{t_atom,[badarg]}},
                   {t_tuple,2,true,#{1 => {t_atom,[badarg]}}}},
                  {{2,{t_atom,[error]}},
                   {t_tuple,2,true,
                       #{1 => {t_atom,[error]},
                         2 =>
                             {t_tuple,2,true,
                                 #{1 => {t_atom,[closed]},
                                   2 => {t_atom,[here]}}}}}},
                  {{2,{t_atom,[true]}},
                   {t_tuple,2,true,
                       #{1 => {t_atom,[true]},2 => {t_list,any,any}}}}],
                 none}},
         2,
         {atom,true}]}.
    {test,is_tagged_tuple,
          {f,64},
          [{tr,{y,0},
               {t_union,none,none,none,
                        [{{2,{t_atom,[badarg]}},
                          {t_tuple,2,true,#{1 => {t_atom,[badarg]}}}},
                         {{2,{t_atom,[true]}},
                          {t_tuple,2,true,
                                   #{1 => {t_atom,[true]},
                                     2 => {t_atom,any}}}}],
                        none}},
           2,
           {atom,true}]}.
    {test,test_arity,{f,64},[{x,0},3]}.
    {get_tuple_element,{y,0},1,{x,1}}.
    {get_tuple_element,{y,1},1,{x,2}}.
    {swap,{x,0},{x,2}}.
    {call_last,3,{f,88},5}. % done/3
  {label,64}.
    {test_heap,4,1}.
    {put_tuple2,{x,0},{list,[{y,1},{y,0},{x,0}]}}.
    {trim,2,3}.
    {line,[{location,"m26_exits.erl",114}]}.
    {call_ext,1,{extfunc,erlang,tuple_to_list,1}}.
    {call,1,{f,67}}. % culprit/1
    {'%',
        {var_info,
            {x,0},
            [{type,
                 {t_union,none,none,none,
                     [{{2,{t_atom,[badarg]}},
                       {t_tuple,2,true,#{1 => {t_atom,[badarg]}}}},
                      {{2,{t_atom,[error]}},
                       {t_tuple,2,true,#{1 => {t_atom,[error]}}}}],
                     none}}]}}.
    {test_heap,6,1}.
    {put_list,{y,0},nil,{x,1}}.
    {put_list,{y,1},{x,1},{x,1}}.
    {put_list,{y,2},{x,1},{x,1}}.
    {get_tuple_element,{x,0},0,{x,2}}.
    {test,is_eq_exact,{f,65},[{x,2},{atom,error}]}.
    {deallocate,3}.
    return.
  {label,65}.
    {line,[{location,"m26_exits.erl",119}]}.
    {call_ext_last,2,{extfunc,erlang,error,2},5}.


{function, culprit, 1, 67}.
  {label,66}.
    {line,[{location,"m26_exits.erl",121}]}.
    {func_info,{atom,m26_exits},{atom,culprit},1}.
  {label,67}.
    {test,is_nonempty_list,{f,66},[{x,0}]}.
    {get_list,{x,0},{x,1},{x,0}}.
    {test,is_tuple,{f,69},[{x,1}]}.
    {test,test_arity,{f,69},[{x,1},2]}.
    {get_tuple_element,{x,1},0,{x,2}}.
    {select_val,{x,2},
                {f,69},
                {list,[{atom,badarg},{f,68},{atom,error},{f,68}]}}.
  {label,68}.
    {move,{x,1},{x,0}}.
    return.
  {label,69}.
    {call_only,1,{f,67}}. % culprit/1


{function, lists, 1, 71}.
  {label,70}.
    {line,[{location,"m26_exits.erl",125}]}.
    {func_info,{atom,m26_exits},{atom,lists},1}.
  {label,71}.
    {test,is_nonempty_list,{f,72},[{x,0}]}.
    {get_hd,{x,0},{x,1}}.
    {test,is_eq_exact,{f,72},[{x,1},{atom,closed}]}.
    {move,{literal,{error,{closed,here}}},{x,0}}.
    return.
  {label,72}.
    {test,is_list,{f,73},[{x,0}]}.
    {test_heap,3,1}.
    {put_tuple2,{x,0},{list,[{atom,true},{x,0}]}}.
    return.
  {label,73}.
    {test_heap,3,1}.
    {put_tuple2,{x,0},{list,[{atom,badarg},{x,0}]}}.
    return.


{function, name, 1, 75}.
  {label,74}.
    {line,[{location,"m26_exits.erl",129}]}.
    {func_info,{atom,m26_exits},{atom,name},1}.
  {label,75}.
    {test,is_atom,{f,76},[{x,0}]}.
    {test_heap,3,1}.
    {put_tuple2,{x,0},{list,[{atom,true},{x,0}]}}.
    return.
  {label,76}.
    {test_heap,3,1}.
    {put_tuple2,{x,0},{list,[{atom,badarg},{x,0}]}}.
    return.


{function, options, 1, 78}.
  {label,77}.
    {line,[{location,"m26_exits.erl",132}]}.
    {func_info,{atom,m26_exits},{atom,options},1}.
  {label,78}.
    {test,is_list,{f,79},[{x,0}]}.
    {move,{literal,{options,up,2}},{x,1}}.
    {call_only,2,{f,81}}. % options/2
  {label,79}.
    {test_heap,2,1}.
    {put_list,{x,0},nil,{x,0}}.
    {call_only,1,{f,78}}. % options/1


{function, options, 2, 81}.
  {label,80}.
    {line,[{location,"m26_exits.erl",135}]}.
    {func_info,{atom,m26_exits},{atom,options},2}.
  {label,81}.
    {'%',{var_info,{x,1},
                   [{type,{t_tuple,3,true,
                                   #{1 => {t_atom,[options]},
                                     2 => {t_atom,[down,up]},
                                     3 => {t_integer,any}}}}]}}.
    {test,is_nonempty_list,{f,86},[{x,0}]}.
    {get_list,{x,0},{x,2},{x,0}}.
    {test,is_tuple,{f,85},[{x,2}]}.
    {test,test_arity,{f,85},[{x,2},2]}.
    {get_tuple_element,{x,2},0,{x,3}}.
    {get_tuple_element,{x,2},1,{x,4}}.
    {select_val,{x,3},{f,85},{list,[{atom,order},{f,83},{atom,size},{f,82}]}}.
  {label,82}.
    {test,is_integer,{f,85},[{x,4}]}.
    {allocate,1,5}.
    {move,{x,0},{y,0}}.
    {move,{x,4},{x,2}}.
    {move,{integer,3},{x,0}}.
    {line,[{location,"m26_exits.erl",136}]}.
    {call_ext,3,{extfunc,erlang,setelement,3}}.
    {move,{x,0},{x,1}}.
    {move,{y,0},{x,0}}.
    {call_last,2,{f,81},1}. % options/2
  {label,83}.
    {select_val,{x,4},{f,85},{list,[{atom,down},{f,84},{atom,up},{f,84}]}}.
  {label,84}.
    {allocate,1,5}.
    {move,{x,0},{y,0}}.
    {move,{x,4},{x,2}}.
    {move,{integer,2},{x,0}}.
    {line,[{location,"m26_exits.erl",135}]}.
    {call_ext,3,{extfunc,erlang,setelement,3}}.
    {move,{x,0},{x,1}}.
    {move,{y,0},{x,0}}.
    {call_last,2,{f,81},1}. % options/2
  {label,85}.
    {test_heap,3,3}.
    {put_tuple2,{x,0},{list,[{atom,badarg},{x,2}]}}.
    return.
  {label,86}.
    {test,is_nil,{f,80},[{x,0}]}.
    {move,{x,1},{x,0}}.
    return.


{function, done, 3, 88}.
  {label,87}.
    {line,[{location,"m26_exits.erl",140}]}.
    {func_info,{atom,m26_exits},{atom,done},3}.
  {label,88}.
    {'%',{var_info,{x,0},[{type,{t_list,any,any}}]}}.
    {'%',{var_info,{x,1},[{type,{t_atom,any}}]}}.
    {'%',{var_info,{x,2},
                   [{type,{t_tuple,3,true,
                                   #{1 => {t_atom,[options]},
                                     2 => {t_atom,[down,up]},
                                     3 => {t_integer,any}}}}]}}.
    {gc_bif,length,{f,0},3,[{tr,{x,0},{t_list,any,any}}],{x,0}}.
    {test_heap,5,3}.
    {get_tuple_element,{x,2},1,{x,3}}.
    {get_tuple_element,{x,2},2,{x,2}}.
    {put_tuple2,{x,0},{list,[{x,1},{x,3},{x,2},{x,0}]}}.
    return.


{function, caught, 3, 90}.
  {label,89}.
    {line,[{location,"m26_exits.erl",143}]}.
    {func_info,{atom,m26_exits},{atom,caught},3}.
  {label,90}.
    {allocate,1,3}.
    {'try',{y,0},{f,91}}.
    {call,3,{f,2}}. % f/3
    {'%',{var_info,{x,0},[{type,{t_tuple,3,true,#{}}}]}}.
    {try_end,{y,0}}.
    {deallocate,1}.
    return.
  {label,91}.
    {try_case,{y,0}}.
    {test_heap,3,2}.
    {put_tuple2,{x,0},{list,[{x,0},{x,1}]}}.
    {deallocate,1}.
    return.


{function, flushed, 1, 93}.
  {label,92}.
    {line,[{location,"m26_exits.erl",145}]}.
    {func_info,{atom,m26_exits},{atom,flushed},1}.
  {label,93}.
    {allocate,1,1}.
    {'catch',{y,0},{f,94}}.
    {call,1,{f,9}}. % flush/1
    {'%',
        {var_info,
            {x,0},
            [{type,
                 {t_tuple,2,true,
                     #{1 => {t_tuple,6,true,#{1 => {t_atom,[store]}}},
                       2 => {t_list,any,nil}}}}]}}.
  {label,94}.
    {catch_end,{y,0}}.
    {deallocate,1}.
    return.


{function, join, 2, 96}.
  {label,95}.
    {line,[{location,"m26_exits.erl",147}]}.
    {func_info,{atom,m26_exits},{atom,join},2}.
  {label,96}.
    {allocate,1,2}.
    {'try',{y,0},{f,97}}.
    {call,2,{f,31}}. % joined/2
    {'%',{var_info,{x,0},[{type,{t_tuple,3,true,#{1 => {t_atom,[pairs]}}}}]}}.
    {try_end,{y,0}}.
    {deallocate,1}.
    return.
  {label,97}.
    {try_case,{y,0}}.
    {test,is_eq_exact,
          {f,98},
          [{tr,{x,0},{t_atom,[error,exit,throw]}},{atom,error}]}.
    {test_heap,3,2}.
    {put_tuple2,{x,0},{list,[{atom,error},{x,1}]}}.
    {deallocate,1}.
    return.
  {label,98}.
    {bif,raise,{f,0},[{x,2},{x,1}],{x,0}}.


{function, checked, 2, 100}.
  {label,99}.
    {line,[{location,"m26_exits.erl",149}]}.
    {func_info,{atom,m26_exits},{atom,checked},2}.
  {label,100}.
    {allocate,1,2}.
    {'try',{y,0},{f,101}}.
    {call,2,{f,59}}. % check/2
    {'%',{var_info,{x,0},[{type,{t_tuple,2,false,#{1 => {t_atom,any}}}}]}}.
    {try_end,{y,0}}.
    {deallocate,1}.
    return.
  {label,101}.
    {try_case,{y,0}}.
    {test_heap,3,2}.
    {put_tuple2,{x,0},{list,[{x,0},{x,1}]}}.
    {deallocate,1}.
    return.


{function, merged, 3, 103}.
  {label,102}.
    {line,[{location,"m26_exits.erl",151}]}.
    {func_info,{atom,m26_exits},{atom,merged},3}.
  {label,103}.
    {allocate,1,3}.
    {'try',{y,0},{f,105}}.
    {line,[{location,"m26_exits.erl",152}]}.
    {call,3,{f,63}}. % merge/3
    {'%',{var_info,{x,0},[{type,{t_tuple,2,false,#{1 => {t_atom,any}}}}]}}.
    {try_end,{y,0}}.
    {test,is_tagged_tuple,
          {f,104},
          [{tr,{x,0},{t_tuple,2,false,#{1 => {t_atom,any}}}},2,{atom,error}]}.
    {test_heap,3,1}.
    {get_tuple_element,{x,0},1,{x,0}}.
    {put_tuple2,{x,0},{list,[{atom,answered},{x,0}]}}.
    {deallocate,1}.
    return.
  {label,104}.
    {deallocate,1}.
    return.
  {label,105}.
    {try_case,{y,0}}.
    {test,is_eq_exact,
          {f,106},
          [{tr,{x,0},{t_atom,[error,exit,throw]}},{atom,error}]}.
    {test,is_tagged_tuple,{f,106},[{x,1},2,{atom,badarg}]}.
    {test_heap,3,2}.
    {get_tuple_element,{x,1},1,{x,0}}.
    {put_tuple2,{x,0},{list,[{x,0},{atom,is_wrong}]}}.
    {deallocate,1}.
    return.
  {label,106}.
    {bif,raise,{f,0},[{x,2},{x,1}],{x,0}}.


{function, counted, 1, 108}.
  {label,107}.
    {line,[{location,"m26_exits.erl",160}]}.
    {func_info,{atom,m26_exits},{atom,counted},1}.
  {label,108}.
    {move,{integer,0},{x,1}}.
    {call_only,2,{f,110}}. % counted/2


{function, counted, 2, 110}.
  {label,109}.
    {line,[{location,"m26_exits.erl",162}]}.
    {func_info,{atom,m26_exits},{atom,counted},2}.
  {label,110}.
    {'%',{var_info,{x,1},[{type,{t_integer,any}}]}}.
    {test,is_nonempty_list,{f,113},[{x,0}]}.
    {get_list,{x,0},{x,2},{x,3}}.
    {test,is_nonempty_list,{f,109},[{x,2}]}.
    {get_list,{x,2},{x,4},{x,2}}.
    {test,is_nonempty_list,{f,109},[{x,2}]}.
    {get_list,{x,2},{x,5},{x,2}}.
    {test,is_nonempty_list,{f,109},[{x,2}]}.
    {get_list,{x,2},{x,6},{x,2}}.
    {test,is_nil,{f,109},[{x,2}]}.
    {allocate_heap,2,6,7}.
    {move,{x,3},{y,0}}.
    {move,{x,1},{y,1}}.
    {put_tuple2,{x,0},{list,[{x,4}]}}.
    {put_tuple2,{x,1},{list,[{x,5}]}}.
    {put_tuple2,{x,2},{list,[{x,6}]}}.
    {line,[{location,"m26_exits.erl",163}]}.
    {call,3,{f,90}}. % caught/3
    {'%',{var_info,{x,0},[{type,{t_tuple,2,false,#{}}}]}}.
    {select_tuple_arity,{tr,{x,0},{t_tuple,2,false,#{}}},
                        {f,114},
                        {list,[2,{f,112},3,{f,111}]}}.
  {label,111}.
    {move,{y,1},{x,1}}.
    {move,{y,0},{x,0}}.
    {call_last,2,{f,110},2}. % counted/2
  {label,112}.
    {get_tuple_element,{x,0},0,{x,1}}.
    {test,is_eq_exact,{f,114},[{x,1},{atom,throw}]}.
    {get_tuple_element,{x,0},1,{x,1}}.
    {test,is_eq_exact,{f,114},[{x,1},{atom,no}]}.
    {line,[{location,"m26_exits.erl",164}]}.
    {gc_bif,'+',{f,0},0,[{tr,{y,1},{t_integer,any}},{integer,1}],{x,1}}.
    {move,{y,0},{x,0}}.
    {call_last,2,{f,110},2}. % counted/2
  {label,113}.
    {test,is_nil,{f,109},[{x,0}]}.
    {move,{x,1},{x,0}}.
    return.
  {label,114}.
    {line,[{location,"m26_exits.erl",163}]}.
    {case_end,{x,0}}.


{function, module_info, 0, 116}.
  {label,115}.
    {line,[]}.
    {func_info,{atom,m26_exits},{atom,module_info},0}.
  {label,116}.
    {move,{atom,m26_exits},{x,0}}.
    {call_ext_only,1,{extfunc,erlang,get_module_info,1}}.


{function, module_info, 1, 118}.
  {label,117}.
    {line,[]}.
    {func_info,{atom,m26_exits},{atom,module_info},1}.
  {label,118}.
    {move,{x,0},{x,1}}.
    {move,{atom,m26_exits},{x,0}}.
    {call_ext_only,2,{extfunc,erlang,get_module_info,2}}.

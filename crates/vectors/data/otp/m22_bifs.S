{module, m22_bifs}.  %% version = 0

{exports, [{bounds,1},
           {compared,1},
           {logic,2},
           {made,2},
           {module_info,0},
           {module_info,1},
           {own,1},
           {parts,1},
           {sizes,1}]}.

{attributes, []}.

{labels, 19}.


{function, compared, 1, 2}.
  {label,1}.
    {line,[{location,"m22_bifs.erl",3}]}.
    {func_info,{atom,m22_bifs},{atom,compared},1}.
  {label,2}.
    {test_heap,13,1}.
    {bif,'=:=',{f,0},[{x,0},{integer,5}],{x,1}}.
    {bif,'=:=',{f,0},[{x,0},{integer,5}],{x,2}}.
    {bif,'=:=',{f,0},[{x,0},nil],{x,3}}.
    {bif,'=:=',{f,0},[{x,0},nil],{x,4}}.
    {bif,'=/=',{f,0},[{x,0},{atom,a}],{x,5}}.
    {bif,'=/=',{f,0},[{x,0},{atom,a}],{x,6}}.
    {bif,'<',{f,0},[{x,0},{integer,7}],{x,7}}.
    {bif,'<',{f,0},[{integer,7},{x,0}],{x,8}}.
    {bif,'>=',{f,0},[{x,0},{atom,b}],{x,9}}.
    {bif,'>=',{f,0},[{atom,b},{x,0}],{x,10}}.
    {bif,'=:=',{f,0},[{x,0},{integer,100000}],{x,11}}.
    {bif,'>',{f,0},[{integer,3000},{x,0}],{x,0}}.
    {put_tuple2,{x,0},
                {list,[{x,1},
                       {x,2},
                       {x,3},
                       {x,4},
                       {x,5},
                       {x,6},
                       {x,7},
                       {x,8},
                       {x,9},
                       {x,10},
                       {x,11},
                       {x,0}]}}.
    return.


{function, bounds, 1, 4}.
  {label,3}.
    {line,[{location,"m22_bifs.erl",4}]}.
    {func_info,{atom,m22_bifs},{atom,bounds},1}.
  {label,4}.
    {allocate,4,1}.
    {init_yregs,{list,[{y,0},{y,1},{y,2}]}}.
    {move,{x,0},{y,3}}.
    {move,{integer,3},{x,1}}.
    {call_ext,2,{extfunc,erlang,max,2}}.
    {move,{x,0},{y,2}}.
    {move,{y,3},{x,1}}.
    {move,{integer,3},{x,0}}.
    {call_ext,2,{extfunc,erlang,min,2}}.
    {move,{x,0},{y,1}}.
    {move,{y,3},{x,1}}.
    {move,nil,{x,0}}.
    {call_ext,2,{extfunc,erlang,max,2}}.
    {move,{x,0},{y,0}}.
    {move,{y,3},{x,0}}.
    {move,nil,{x,1}}.
    {call_ext,2,{extfunc,erlang,min,2}}.
    {swap,{y,3},{x,0}}.
    {move,{atom,a},{x,1}}.
    {call_ext,2,{extfunc,erlang,max,2}}.
    {test_heap,6,1}.
    {put_tuple2,{x,0},{list,[{y,2},{y,1},{y,0},{y,3},{x,0}]}}.
    {deallocate,4}.
    return.


{function, parts, 1, 6}.
  {label,5}.
    {line,[{location,"m22_bifs.erl",5}]}.
    {func_info,{atom,m22_bifs},{atom,parts},1}.
  {label,6}.
    {bif,element,{f,0},[{integer,1},{x,0}],{x,1}}.
    {bif,element,{f,0},[{integer,2},{tr,{x,0},{t_tuple,1,false,#{}}}],{x,0}}.
    {bif,hd,{f,0},[{x,0}],{x,2}}.
    {test_heap,5,3}.
    {get_tl,{x,0},{x,3}}.
    {put_tuple2,{x,0},{list,[{x,1},{x,0},{x,2},{x,3}]}}.
    return.


{function, logic, 2, 8}.
  {label,7}.
    {line,[{location,"m22_bifs.erl",6}]}.
    {func_info,{atom,m22_bifs},{atom,logic},2}.
  {label,8}.
    {bif,'and',{f,0},[{x,0},{atom,true}],{x,2}}.
    {bif,'or',{f,0},[{x,1},{atom,false}],{x,3}}.
    {bif,'xor',{f,0},[{x,0},{x,1}],{x,1}}.
    {test_heap,5,4}.
    {bif,'not',{f,0},[{x,0}],{x,0}}.
    {put_tuple2,{x,0},{list,[{x,2},{x,3},{x,1},{x,0}]}}.
    return.


{function, sizes, 1, 10}.
  {label,9}.
    {line,[{location,"m22_bifs.erl",7}]}.
    {func_info,{atom,m22_bifs},{atom,sizes},1}.
  {label,10}.
    {bif,tuple_size,{f,0},[{x,0}],{x,1}}.
    {bif,element,{f,0},[{integer,2},{tr,{x,0},{t_tuple,0,false,#{}}}],{x,2}}.
    {gc_bif,length,{f,0},3,[{x,2}],{x,2}}.
    {get_tuple_element,{x,0},0,{x,0}}.
    {gc_bif,abs,{f,0},3,[{x,0}],{x,3}}.
    {gc_bif,'-',{f,0},4,[{tr,{x,0},number}],{x,4}}.
    {gc_bif,'bnot',{f,0},5,[{tr,{x,0},number}],{x,5}}.
    {gc_bif,'*',{f,0},6,[{tr,{x,0},{t_integer,any}},{integer,3}],{x,6}}.
    {gc_bif,'rem',{f,0},7,[{tr,{x,0},{t_integer,any}},{integer,4}],{x,7}}.
    {gc_bif,'-',{f,0},8,[{integer,1000},{tr,{x,0},{t_integer,any}}],{x,0}}.
    {test_heap,9,8}.
    {put_tuple2,{x,0},
                {list,[{x,1},{x,2},{x,3},{x,4},{x,5},{x,6},{x,7},{x,0}]}}.
    return.


{function, own, 1, 12}.
  {label,11}.
    {line,[{location,"m22_bifs.erl",8}]}.
    {func_info,{atom,m22_bifs},{atom,own},1}.
  {label,12}.
    {test_heap,5,1}.
    {bif,self,{f,0},[],{x,1}}.
    {bif,is_pid,{f,0},[{x,1}],{x,1}}.
    {put_tuple2,{x,0},{list,[{atom,true},{x,1},{atom,true},{x,0}]}}.
    return.


{function, made, 2, 14}.
  {label,13}.
    {line,[{location,"m22_bifs.erl",9}]}.
    {func_info,{atom,m22_bifs},{atom,made},2}.
  {label,14}.
    {test_heap,24,2}.
    {put_list,{x,0},{x,1},{x,2}}.
    {put_tuple2,{x,3},{list,[{x,1},nil,{atom,a},{integer,16},{integer,-1}]}}.
    {put_tuple2,{x,3},{list,[{x,0},{x,3}]}}.
    {put_tuple2,{x,4},{list,[{x,1},{x,0}]}}.
    {put_list,{x,4},{x,1},{x,1}}.
    {put_tuple2,{x,0},{list,[{x,0}]}}.
    {put_list,{x,0},{x,1},{x,0}}.
    {put_tuple2,{x,0},{list,[{x,2},{x,3},{x,0}]}}.
    return.


{function, module_info, 0, 16}.
  {label,15}.
    {line,[]}.
    {func_info,{atom,m22_bifs},{atom,module_info},0}.
  {label,16}.
    {move,{atom,m22_bifs},{x,0}}.
    {call_ext_only,1,{extfunc,erlang,get_module_info,1}}.


{function, module_info, 1, 18}.
  {label,17}.
    {line,[]}.
    {func_info,{atom,m22_bifs},{atom,module_info},1}.
  {label,18}.
    {move,{x,0},{x,1}}.
    {move,{atom,m22_bifs},{x,0}}.
    {call_ext_only,2,{extfunc,erlang,get_module_info,2}}.

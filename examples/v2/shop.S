{module, shop}.  %% version = 0

{exports, [{module_info,0},{module_info,1},{open,1},{start,0}]}.

{attributes, []}.

{labels, 13}.


{function, open, 1, 2}.
  {label,1}.
    {line,[{location,"shop.erl",5}]}.
    {func_info,{atom,shop},{atom,open},1}.
  {label,2}.
    {allocate,2,1}.
    {init_yregs,{list,[{y,0}]}}.
    {move,{x,0},{y,1}}.
  {label,3}.
    {loop_rec,{f,6},{x,0}}.
    {test,is_tuple,{f,4},[{x,0}]}.
    {test,test_arity,{f,5},[{x,0},2]}.
    {get_tuple_element,{x,0},1,{x,1}}.
    {test,is_tagged_tuple,{f,5},[{x,1},2,{atom,buy}]}.
    {get_tuple_element,{x,1},1,{y,0}}.
    remove_message.
    {line,[{location,"shop.erl",8}]}.
    {gc_bif,'*',{f,0},1,[{y,0},{integer,2}],{x,1}}.
    {gc_bif,'+',{f,0},2,[{y,1},{tr,{y,0},number}],{x,2}}.
    {test_heap,5,3}.
    {put_tuple2,{x,1},{list,[{atom,costs},{x,1},{atom,sold},{x,2}]}}.
    {get_tuple_element,{x,0},0,{x,0}}.
    send.
    {line,[{location,"shop.erl",9}]}.
    {gc_bif,'+',{f,0},0,[{tr,{y,1},number},{tr,{y,0},number}],{x,0}}.
    {call_ext_last,1,{extfunc,shop,open,1},2}.
  {label,4}.
    {test,is_eq_exact,{f,5},[{x,0},{atom,close}]}.
    remove_message.
    {move,{y,1},{x,0}}.
    {deallocate,2}.
    return.
  {label,5}.
    {loop_rec_end,{f,3}}.
  {label,6}.
    {wait,{f,3}}.


{function, start, 0, 8}.
  {label,7}.
    {line,[{location,"shop.erl",15}]}.
    {func_info,{atom,shop},{atom,start},0}.
  {label,8}.
    {allocate,0,0}.
    {bif,self,{f,0},[],{x,1}}.
    {move,{atom,shop},{x,0}}.
    {line,[{location,"shop.erl",16}]}.
    {call_ext,2,{extfunc,erlang,register,2}}.
    {move,{integer,0},{x,0}}.
    {call_last,1,{f,2},0}. % open/1


{function, module_info, 0, 10}.
  {label,9}.
    {line,[]}.
    {func_info,{atom,shop},{atom,module_info},0}.
  {label,10}.
    {move,{atom,shop},{x,0}}.
    {call_ext_only,1,{extfunc,erlang,get_module_info,1}}.


{function, module_info, 1, 12}.
  {label,11}.
    {line,[]}.
    {func_info,{atom,shop},{atom,module_info},1}.
  {label,12}.
    {move,{x,0},{x,1}}.
    {move,{atom,shop},{x,0}}.
    {call_ext_only,2,{extfunc,erlang,get_module_info,2}}.
